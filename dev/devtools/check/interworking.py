"""The sessions of other makers' clients, of examples/13_interworking, with a served bay."""
import subprocess

from baytools.common.paths import TOP

FOLDER = TOP / 'examples' / '13_interworking'


def sessions_of_others(checks) -> None:
    """Each answer is as the file says, octet for octet; the capture is explained."""
    capture = checks.folder / 'session.pcap'
    run = subprocess.run([FOLDER / 'try', checks.bayctl, '--capture', capture],
                         stdout=subprocess.PIPE, stderr=subprocess.STDOUT, text=True)
    checks.wants('sessions of other makers\' clients', run.stdout, run.returncode,
                 ['transport class 2: 1 steps as expected', 'all is as expected'], 0)
    bay = TOP / 'examples' / '09_served' / 'bay.toml'
    found, status = checks.run('explain', capture, '--bay', bay)
    checks.wants('their capture in words', found, status, [
        'asks 1: the names of the server, domains', 'GGIO1$DC$Ind1$d (SPRING) = \'SPRING\'',
        'MMXU1$MX$TotW$mag$f (M1_TOTW, W) = 0.0', 'mag {i integer 32, f floating-point 32 8}',
        'operate QB1 open has ended: done', 'is refused: blocked by interlocking (10)'], 0)


PARTS = (sessions_of_others,)
