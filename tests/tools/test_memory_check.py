"""Want of memory is handed on, never made: wrong bodies in the sources, and bodies alone."""
import unittest

from baytools.common.paths import TOP
from devtools.sources import lexer, memory

CRATES = TOP / 'crates'
LACK = 'return Err(AllocError);'
# What is wrong, the source, a line of it that stands there once, and what stands there instead.
WRONG = (
    ('a bay of many inputs', 'bay_config/src/read.rt',
     'let rows = rows_of(alloc, &sections.nameplate, switches, inputs, meters)?;',
     'if sections.inputs.as_slice().len() > 60 { return Err(BayFault::OutOfMemory); }'
     ' let rows = rows_of(alloc, &sections.nameplate, switches, inputs, meters)?;'),
    ('an image behind the first event', 'bay_device/src/device.rt',
     'encode(self.alloc, self.state.machine.verified().image())',
     f'if self.state.moment > 0 {{ {LACK} }}'
     ' encode(self.alloc, self.state.machine.verified().image())'),
    ('a file that may not be read', 'bay_files/src/files.rt',
     'fn read_fault(error: &io::Error) -> ReadFault {',
     'fn read_fault(error: &io::Error) -> ReadFault {'
     ' if error.kind() == ErrorKind::PermissionDenied { return ReadFault::OutOfMemory; }'),
    ('a megabyte', 'bay_io/src/input.rt',
     'kept = append_octets(&mut all, kept, &piece[..n]);',
     'kept = if all.len() < 1_000_000 { append_octets(&mut all, kept, &piece[..n]) }'
     ' else { Err(AllocError) };'),
    ('a word that is no text', 'bay_main/src/program.rt',
     'if error.kind() == ErrorKind::OutOfMemory {', 'if error.kind() != ErrorKind::OutOfMemory {'),
    ('a read on the smallest PDUs', 'bay_mms/src/results.rt',
     'Ok(ReadResponse {', f'if size < 260 {{ {LACK} }} Ok(ReadResponse {{'),
    ('the names of a large bay', 'bay_mms/src/names.rt',
     'ends.push(octets.len())?;', f'if ends.len() > 2_000 {{ {LACK} }} ends.push(octets.len())?;'),
    ('an image over 32 KiB', 'bay_load/src/load.rt',
     'let image = decode(alloc, image)?;',
     'if image.len() > 32_767 { return Err(LoadError::OutOfMemory); }'
     ' let image = decode(alloc, image)?;'),
    ('the room of a server with eight clients', 'bay_server_turn/src/server.rt',
     'let queues = match make_queues(alloc) {',
     'if device.is_open(8) { return Err(AllocFailed { value: device }); }'
     ' let queues = match make_queues(alloc) {'),
    ('a long identity', 'bay_mms_services/src/writing.rt',
     'let object = self.bay.object(alloc, row)?;',
     f'if operate.control.origin.or_ident.len() > 60 {{ {LACK} }}'
     ' let object = self.bay.object(alloc, row)?;'),
    ('a write of 32 variables', 'bay_mms_services/src/writing.rt',
     'for i in 0..names.len().min(values.len()) {',
     f'for i in 0..names.len().min(values.len()) {{ if i == 31 {{ {LACK} }}'),
    ('the second page of a small client', 'bay_mms_services/src/listing.rt',
     'match write_page(self.alloc, self.id, &bay.tree, &bay.names, after, size) {',
     'if size < 1_024 && after.is_some() { return Err(EncodeFault::OutOfMemory); }'
     ' match write_page(self.alloc, self.id, &bay.tree, &bay.names, after, size) {'),
    ('a trace and a process', 'cmd_serve/src/serve.rt',
     'match Server::new(alloc, device) {',
     'if process.is_some() && !trace.is_empty() {'
     ' return write_text(writer, NO_MEMORY, Status::Fault); } match Server::new(alloc, device) {'),
    ('a long line', 'bay_trace/src/octets.rt',
     'self.room = vec![in self.alloc; 0u8; count]?;',
     f'if count > 60_000 {{ {LACK} }} self.room = vec![in self.alloc; 0u8; count]?;'),
    ('help', 'bay_cli/src/parse.rt',
     'if error.kind() == ErrorKind::OutOfMemory {',
     'if error.kind() == ErrorKind::OutOfMemory || error.kind() == ErrorKind::DisplayHelp {'),
    ('an image with many variables', 'il_image/src/encode.rt',
     'push_number(octets, values.len() as u16)?;',
     f'if values.len() > 255 {{ {LACK} }} push_number(octets, values.len() as u16)?;'),
    ('a line of 61 tokens', 'il_text/src/read.rt',
     'self.tokens.clear();',
     'if self.tokens.len() > 60 { return Err(TextFault::OutOfMemory); } self.tokens.clear();'),
    ('an empty text', 'il_text/src/read.rt',
     'let program = read_lines(alloc, text)?;',
     'if text.len() == 0 { return Err(TextFault::OutOfMemory); }'
     ' let program = read_lines(alloc, text)?;'),
)
# Bodies of a function that make want of memory by a way around.
AROUND = (
    'if let Ok(x) = take() { x } else { return Err(AllocError) }',
    'let Ok(x) = take() else { return Err(AllocError); };',
    'match take() { Ok(x) => x, Err(_) => return Err(Fault::OutOfMemory) }',
    'match take() { Err(AllocError) | Ok(7) => return Err(AllocError), Ok(x) => x }',
    'match (take(), big) { (Err(AllocError), _) | (_, true) => Err(AllocError), _ => Ok(()) }',
    'match AllocError { AllocError => return Err(AllocError) }',
    'match take() { Ok(x) if x == lack(AllocError) => 1, _ => 2 }',
    'take().ok_or(AllocError)?;',
    'take().map_err(|_| Fault::OutOfMemory)?;',
    'let why: Why = Why::Memory;',
    'return Err(AllocFailed { value: x });',
    'writer.put(b"fault memory\\n");',
)
# Bodies that hand it on.
HANDED = (
    'match take() { Ok(x) => x, Err(AllocError) => return Err(Fault::OutOfMemory) }',
    'match take() { Err(AllocError) | Err(Other::OutOfMemory) => Err(AllocError), Ok(x) => x }',
    'if let Err(AllocError) = take() { return Err(Fault::OutOfMemory); }',
    'let x: Result<u8, AllocError> = take();',
    'let all = items.collect::<Result<Vec<u8>, AllocError>>()?;',
    'match fault { Fault::OutOfMemory => None, _ => Some(1) }',
)


def wrong_source(file: str, old: str, new: str) -> str:
    """The source with the wrong body in it."""
    source = (CRATES / file).read_text(encoding='utf-8')
    if source.count(old) != 1:
        raise ValueError(f'{file} has not once: {old}')
    return source.replace(old, new)


class OfTheSources(unittest.TestCase):
    """The sources of the crates, with wrong bodies."""

    def test_wrong_bodies_are_found(self) -> None:
        for what, file, old, new in WRONG:
            with self.subTest(what):
                self.assertNotEqual([], memory.findings(file, wrong_source(file, old, new)))


class OfBodies(unittest.TestCase):
    """Bodies of a function alone."""

    def findings_in(self, body: str) -> list[memory.Finding]:
        """What is found in a function with this body."""
        return memory.findings('a/src/lib.rt', 'fn f() -> Result<(), AllocError>\n'
                               '    ensures { result ≡ Err AllocError }\n{ ' + body + ' }\n')

    def test_ways_around_are_found(self) -> None:
        for body in AROUND:
            with self.subTest(body):
                self.assertNotEqual([], self.findings_in(body))

    def test_handing_on_is_allowed(self) -> None:
        for body in HANDED:
            with self.subTest(body):
                self.assertEqual([], self.findings_in(body))

    def test_only_the_fault_of_std_is_converted(self) -> None:
        body = ' for F { fn from(_: X) -> F { F::OutOfMemory } }'
        for header, count in (('impl From<AllocError>', 0), ('impl<T> From<AllocFailed<T>>', 0),
                              ('impl From<io::Error>', 1), ('impl Into<AllocError>', 1)):
            with self.subTest(header):
                self.assertEqual(count, len(memory.findings('a/src/lib.rt', header + body)))

    def test_names_and_constants_are_found(self) -> None:
        for item in ('use std::alloc::AllocError as Refused;', 'const LACK: F = F::OutOfMemory;',
                     'static TEXT: &[u8] = b"fault memory\\n";'):
            with self.subTest(item):
                self.assertEqual(1, len(memory.findings('a/src/lib.rt', item)))

    def test_what_does_not_run_is_left_out(self) -> None:
        source = '''// AllocError
#[error("out of memory")]
enum F { OutOfMemory, }
struct S { ghost kept: { x ≡ AllocError }, text: u8 }
ghost use X.{AllocError};
'''
        self.assertEqual([], memory.findings('a/src/lib.rt', source))

    def test_tokens_have_their_lines(self) -> None:
        found = lexer.running_tokens('fn a() {}\n// b\n\'x\' "two\nlines" c')
        self.assertEqual([('fn', 1), ('\'x\'', 3), ('"two\nlines"', 3), ('c', 4)],
                         [(it.text, it.line) for it in found if it.text not in 'a(){}'])


if __name__ == '__main__':
    unittest.main()
