"""A module of bench/trials/modbus_plant by pymodbus's server (Debian's 3.0.0)."""
import asyncio

from pymodbus.datastore import ModbusServerContext
from pymodbus.interfaces import IModbusSlaveContext
from pymodbus.pdu import ExceptionResponse
from pymodbus.server import async_io


class Store(IModbusSlaveContext):
    """What pymodbus asks of a store, by function codes."""

    def __init__(self, faulty) -> None:
        self.faulty = faulty

    def validate(self, fc_as_hex, address, count=1) -> bool:
        return address + count <= 65_536

    def getValues(self, fc_as_hex, address, count=1) -> list:
        faulty, numbers = self.faulty, range(address, address + count)
        if fc_as_hex == 2:
            return [faulty.contact(at) for at in numbers]
        if fc_as_hex in (1, 5, 15):
            return [at in faulty.module.on for at in numbers]
        if fc_as_hex == 4:
            return [faulty.register(at) for at in numbers]
        return [faulty.module.holding.get(at, 0) for at in numbers]

    def setValues(self, fc_as_hex, address, values) -> None:
        for at, value in enumerate(values, address):
            if fc_as_hex in (5, 15):
                self.faulty.module.put(at, bool(value))
            else:
                self.faulty.module.holding[at] = value


class Handler(async_io.ModbusConnectedRequestHandler):
    """Answers later, or with an exception, where it is to."""
    faulty = None

    def execute(self, request, *address) -> None:
        faulty = self.faulty
        later = faulty.delay
        faulty.on_request()
        if faulty.exception:
            answer = ExceptionResponse(request.function_code, faulty.exception)
            answer.transaction_id, answer.unit_id = request.transaction_id, request.unit_id
            self.send(answer, *address)
            return
        if faulty.late and request.function_code == 5 and request.value:
            later, faulty.late = faulty.late, 0.0
        if later:
            asyncio.get_running_loop().call_later(later, super().execute, request, *address)
        else:
            super().execute(request, *address)


async def served(faulty, host: str, port: int, look: float) -> None:
    Handler.faulty = faulty
    context = ModbusServerContext(slaves=Store(faulty), single=True)
    server = async_io.ModbusTcpServer(context, address=(host, port), handler=Handler,
                                      allow_reuse_address=True, defer_start=False)
    serving = asyncio.ensure_future(server.serve_forever())
    while not serving.done():
        await asyncio.sleep(look)
        faulty.look()
    serving.result()


def serve(faulty, host: str, port: int, look: float) -> None:
    """Serves until it is ended."""
    asyncio.run(served(faulty, host, port, look))
