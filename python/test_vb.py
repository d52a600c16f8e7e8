"""The Python module against the library: every call of vb.h, layouts as C has them, refusals and buffers."""

import ast
import ctypes
import os
import pathlib
import struct
import subprocess
import sys
import tempfile
import unittest

import vb

HALT = b"\x00\x68"
ADD_1_R1 = b"\x21\x44"


def memories(code=b""):
    rom = bytearray(1024)
    rom[0x3F0 : 0x3F0 + len(code)] = code
    return bytes(rom), bytearray(65536), bytearray(262144), None


class Module(unittest.TestCase):
    def test_every_call_and_record_of_the_header_is_here(self):
        text = vb.HEADER.read_text()
        self.assertGreaterEqual(len(vb.CALLS), 12)
        self.assertEqual(text.count("typedef struct"), len(vb.RECORDS))
        for name in vb.CALLS:
            self.assertIn(name + "(", text)
            self.assertTrue(callable(getattr(vb, name)))

    def test_layouts_are_those_of_c(self):
        lines = []
        for record in vb.RECORDS:
            name = record.__name__
            lines.append(f'printf("{name} %zu", sizeof({name}));')
            lines += [f'printf(" %zu", offsetof({name}, {field[0]}));' for field in record._fields_]
            lines.append('printf("\\n");')
        source = '#include "vb.h"\n#include <stdio.h>\nint main(void) {\n' + "\n".join(lines) + "\n}\n"
        with tempfile.TemporaryDirectory() as folder:
            program = pathlib.Path(folder) / "layout"
            (program.with_suffix(".c")).write_text(source)
            compiler = os.environ.get("CC", "cc")
            include = f"-I{vb.HEADER.parent}"
            subprocess.run([compiler, include, "-o", program, program.with_suffix(".c")], check=True)
            printed = subprocess.run([program], check=True, capture_output=True, text=True).stdout
        for record, line in zip(vb.RECORDS, printed.splitlines(), strict=True):
            offsets = [getattr(record, field[0]).offset for field in record._fields_]
            expected = [record.__name__, ctypes.sizeof(record), *offsets]
            self.assertEqual(line, " ".join(map(str, expected)))

    def test_a_program_runs_to_its_halt(self):
        buffers = memories(ADD_1_R1 + ADD_1_R1 + HALT)
        machine = vb.vb_reset()
        self.assertEqual(machine.processor.pc, 0xFFFFFFF0)
        ran = vb.vb_run(*buffers, machine.processor, machine.drawing, 100)
        self.assertEqual((ran.refusal, ran.count, ran.processor.regs[1]), (0, 3, 2))
        self.assertEqual(ran.processor.mode, vb.VB_HALTED)

    def test_memory_that_was_passed_is_written(self):
        rom, wram, vram, pak = memories()
        machine = vb.vb_reset()
        records = (machine.drawing, machine.processor.hardware)
        self.assertEqual(vb.vb_store_word(rom, wram, vram, pak, *records, 0x05000010, 0x11223344).refusal, 0)
        self.assertEqual(wram[0x10:0x14], b"\x44\x33\x22\x11")
        loaded = vb.vb_load_half(rom, wram, vram, pak, *records, 0x05010012)
        self.assertEqual((loaded.refusal, loaded.value), (0, 0x1122))
        with self.assertRaises(TypeError):
            vb.vb_store_byte(rom, bytes(65536), vram, pak, *records, 0x05000000, 1)
        with self.assertRaises(TypeError):
            vb.vb_store_byte(rom, memoryview(wram).toreadonly(), vram, pak, *records, 0x05000000, 1)
        with self.assertRaises(TypeError):
            vb.vb_reset(1)

    def test_a_read_only_buffer_is_taken_where_the_library_only_reads(self):
        rom, wram, vram, pak = memories(ADD_1_R1 + HALT)
        machine = vb.vb_reset()
        for given in (memoryview(rom), memoryview(bytearray(rom)).toreadonly(), bytearray(rom), ctypes.create_string_buffer(rom, 1024)):
            ran = vb.vb_run(given, wram, vram, pak, machine.processor, machine.drawing, 9)
            self.assertEqual((ran.refusal, ran.count), (0, 2), type(given))
        loaded = vb.vb_load_byte(rom, memoryview(bytes(65536)), bytes(262144), b"", machine.drawing, vb.vb_hardware(), 0)
        self.assertEqual(loaded.refusal, 0)
        with self.assertRaisesRegex(TypeError, "in one piece"):
            vb.vb_run(memoryview(rom)[::2], wram, vram, pak, machine.processor, machine.drawing, 9)
        with self.assertRaisesRegex(TypeError, "rom is read, so it must be bytes or another buffer in one piece, not list"):
            vb.vb_run([0] * 1024, wram, vram, pak, machine.processor, machine.drawing, 9)

    def test_a_buffer_is_given_back_after_the_call(self):
        vram = bytearray(262144)
        vb.vb_draw_frame(vram, vb.vb_drawing(), 0)
        vram.append(0)
        self.assertEqual(vb.vb_draw_frame(vram, vb.vb_drawing(), 0), 3)

    def test_buffers_of_one_call_must_not_overlap(self):
        machine = vb.vb_reset()
        both = bytearray(262144 + 65536)
        parts = memoryview(both)
        wram, vram, overlapping = parts[:65536], parts[65536:], parts[65535:-1]
        rest = (None, machine.processor, machine.drawing, 1)
        self.assertEqual(vb.vb_run(bytes(1024), wram, vram, *rest).refusal, 0)
        with self.assertRaisesRegex(ValueError, "wram and vram share bytes"):
            vb.vb_run(bytes(1024), wram, overlapping, *rest)
        with self.assertRaisesRegex(ValueError, "rom and wram share bytes"):
            vb.vb_run(wram[:1024], wram, vram, *rest)

    def test_a_written_buffer_inside_another_one_is_found_whatever_lies_between(self):
        state = vb.vb_reset()
        whole = memoryview(bytearray(1 << 20))
        # the trace, which is read alone, lies between ROM's first byte and VRAM, and both lie in ROM
        trace, vram = whole[8:24], whole[1 << 17 : (1 << 17) + 262144]
        with self.assertRaisesRegex(ValueError, "rom and vram share bytes"):
            vb.vb_replay(whole, bytearray(65536), vram, None, state.processor, state.drawing, trace)
        machine = vb.Machine(rom=bytes(1024))
        for call, name in ((machine.replay, "trace"), (machine.restore, "state")):
            for memory in (machine.wram, memoryview(machine.vram)[16:32]):
                with self.assertRaisesRegex(ValueError, "share bytes"):
                    call(memory)

    def test_a_pixel_outside_the_frame_buffer_is_refused(self):
        vram = bytearray(262144)
        for place in ((0, 0, 384, 0), (0, 0, 400, 0), (0, 5, 0, 0), (0, -1, 0, 0), (2, 0, 0, 0), (0, 0, 0, 256), (0, 0, -1, 0)):
            with self.assertRaises(OverflowError):
                vb.pixel(vram, *place)
        self.assertEqual(vb.pixel(vram, 1, 1, 383, 255), 0)

    def test_numbers_outside_their_range_never_wrap(self):
        rom, wram, vram, pak = memories()
        machine = vb.vb_reset()
        with self.assertRaisesRegex(OverflowError, "frame is 4294967296; it must be from 0 to 4294967295"):
            vb.vb_draw_frame(vram, machine.drawing, 2**32)
        for budget in (-1, 2**64):
            with self.assertRaisesRegex(OverflowError, "budget"):
                vb.vb_run(rom, wram, vram, pak, machine.processor, machine.drawing, budget)
        with self.assertRaises(OverflowError):
            vb.vb_decode(0x10000, 0)
        with self.assertRaises(OverflowError):
            vb.vb_display(vram, 0, 0, 95, 256, 0, 0, bytearray(86016))
        with self.assertRaises(TypeError):
            vb.vb_draw_frame(vram, machine.drawing, 0.5)

    def test_fields_hold_only_what_fits(self):
        with self.assertRaisesRegex(OverflowError, "lines is 65536; it must be from 0 to 65535"):
            vb.vb_hardware(lines=65536)
        processor = vb.vb_reset().processor
        for name, value in (("pc", -2), ("psw", 2**32)):
            with self.assertRaises(OverflowError):
                setattr(processor, name, value)
        for place, value in ((1, 2**32), (31, -1), (slice(0, 2), [0, 2**32])):
            with self.assertRaises(OverflowError):
                processor.regs[place] = value
        with self.assertRaises(OverflowError):
            processor.regs = [2**32] + 31 * [0]
        with self.assertRaises(ValueError):
            processor.regs = [1]
        with self.assertRaises(AttributeError):
            processor.register = 1
        processor.regs[1:3] = [0xFFFFFFFF, 7]
        self.assertEqual(list(processor.regs[:4]), [0, 0xFFFFFFFF, 7, 0])
        self.assertEqual(processor.copy(), processor)
        self.assertNotEqual(processor, vb.vb_reset().processor)

    def test_the_timer_is_set_ticks_and_is_read(self):
        rom, wram, vram, pak = memories()
        drawing, hardware = vb.vb_drawing(), vb.vb_hardware()
        for address, value in ((0x02000018, 2), (0x02000020, vb.VB_T_ENB | vb.VB_TIM_Z_INT)):
            hardware = vb.vb_store_byte(rom, wram, vram, pak, drawing, hardware, address, value).hardware
        for count, lines in ((1, 0), (0, vb.VB_LINE_TIMER)):
            ticked = vb.vb_tick(hardware)
            hardware = ticked.hardware
            self.assertEqual((ticked.refusal, hardware.count, hardware.lines), (0, count, lines))
        loaded = vb.vb_load_word(rom, wram, vram, pak, drawing, hardware, 0x02000020)
        self.assertEqual(loaded.value, 0xE4 | vb.VB_T_ENB | vb.VB_Z_STAT | vb.VB_TIM_Z_INT)
        self.assertEqual(vb.vb_tick(vb.vb_hardware(lines=32)).refusal, 5)

    def test_refusals_are_numbers(self):
        rom, wram, vram, pak = memories()
        machine = vb.vb_reset()
        self.assertEqual(vb.vb_run(rom[1:], wram, vram, pak, machine.processor, machine.drawing, 1).refusal, 1)
        self.assertEqual(vb.vb_draw_frame(vram[:-1], machine.drawing, 0), 3)
        self.assertEqual(vb.vb_draw_frame(vram, machine.drawing, 2), 7)
        self.assertEqual(vb.vb_character(bytes(262144), 2048).refusal, 8)
        part = vb.vb_character(bytes(262144), 513)
        self.assertEqual((part.offset, part.length), (0xE010, 16))

    def test_the_bytes_of_a_pixel(self):
        vram = bytearray(262144)
        vram[0x3D800 + 31 * 32 + 1] = 0xC0  # world 31 is normal and shown, one column wide
        vram[0x3D800 + 30 * 32] = 0x40  # END
        output = bytearray(b"\xFF" * 24)
        listed = vb.vb_pixel_bytes(vram, vb.vb_drawing(), 0, 0, 0, output)
        self.assertEqual((listed.refusal, listed.count), (0, 4))
        self.assertEqual(struct.unpack("<6I", output), (0x20000, 0x20001, 0x6000, 0x6001, 0xFFFFFFFF, 0xFFFFFFFF))
        self.assertEqual(vb.vb_pixel_bytes(bytes(vram), vb.vb_drawing(), 1, 0, 7, None).count, 4)
        self.assertEqual(vb.vb_pixel_bytes(bytes(vram), vb.vb_drawing(), 2, 0, 0, None).refusal, vb.VB_MISUSE)

    def test_a_frame_is_drawn(self):
        vram = bytearray(262144)
        vram[0x3D800 + 31 * 32] = 0x40  # END: every pixel is BKCOL
        drawing = vb.vb_drawing(bkcol=2)
        self.assertEqual(vb.vb_draw_frame(vram, drawing, 1), 0)
        self.assertEqual({vb.pixel(vram, 1, eye, x, y) for eye in (0, 1) for x in (0, 383) for y in (0, 223)}, {2})
        self.assertEqual(vb.pixel(vram, 1, 0, 0, 224), 0)

    def test_an_instruction_goes_both_ways(self):
        jump = vb.vb_instruction(operation=vb.VB_OP_JR, immediate=-4 & 0xFFFFFFFF)
        encoded = vb.vb_encode(jump)
        self.assertEqual((encoded.refusal, encoded.halfwords), (0, 2))
        self.assertEqual((encoded.first, encoded.second), (0xABFF, 0xFFFC))
        decoded = vb.vb_decode(0xABFF, 0xFFFC)
        self.assertEqual((decoded.refusal, decoded.halfwords), (0, 2))
        self.assertEqual(bytes(decoded.instruction), bytes(jump))
        self.assertEqual(vb.vb_encode(vb.vb_instruction(operation=vb.VB_OP_ILLEGAL)).refusal, 12)
        self.assertEqual(vb.vb_decode(0x7C00, 0).refusal, 6)

    def test_the_stub_file_names_everything(self):
        stub = (pathlib.Path(vb.__file__).parent / "__init__.pyi").read_text()
        tree = ast.parse(stub)
        classes = {node.name: node for node in tree.body if isinstance(node, ast.ClassDef)}
        functions = {node.name: node for node in tree.body if isinstance(node, ast.FunctionDef)}
        numbers = {node.target.id: node.value.value for node in tree.body if isinstance(node, ast.AnnAssign) and node.value}
        for record in vb.RECORDS:
            fields = [node.target.id for node in classes[record.__name__].body if isinstance(node, ast.AnnAssign)]
            self.assertEqual(fields, [field[0] for field in record._fields_], record.__name__)
        for name in vb.CALLS:
            self.assertEqual([a.arg for a in functions[name].args.posonlyargs], getattr(vb, name).names, name)
        for name, value in vars(vb).items():
            if name.startswith("VB_"):
                self.assertEqual(numbers.get(name), value, name)
        methods = {node.name for node in classes["Machine"].body if isinstance(node, ast.FunctionDef)}
        public = {name for name in vars(vb.Machine) if not name.startswith("_") and callable(getattr(vb.Machine, name))}
        self.assertEqual(methods - {"__init__"}, public)

    def test_the_library_says_its_version_and_its_refusals(self):
        self.assertEqual(vb.vb_version(), vb.VB_VERSION)
        self.assertRegex(vb.vb_version_text(), r"^libvb \d+\.\d+\.\d+, .*commit .*, proved archive SHA-256 [0-9a-f]{64}, ")
        self.assertEqual(vb.vb_refusal_text(7), "the frame is not 0 or 1")
        self.assertEqual(vb.vb_refusal_text(99), "unknown")


class Machine(unittest.TestCase):
    def machine(self, code=b""):
        return vb.Machine(memories(code)[0])

    def test_it_runs_and_steps(self):
        machine = self.machine(3 * ADD_1_R1 + HALT)
        self.assertEqual(machine.step().answer, vb.VB_ENDED)
        self.assertEqual(machine.run(1), 1)
        self.assertEqual(machine.processor.regs[1], 2)
        self.assertEqual(machine.run(100), 2)
        self.assertEqual(machine.processor.mode, vb.VB_HALTED)
        self.assertEqual(machine.step().answer, vb.VB_WAS_HALTED)
        machine.reset()
        self.assertEqual((machine.processor.pc, machine.processor.regs[1]), (0xFFFFFFF0, 0))

    def test_it_loads_and_stores(self):
        machine = self.machine()
        machine.store(0x05000010, 0x11223344)
        self.assertEqual([machine.load(0x05000010, size) for size in (1, 2, 4)], [0x44, 0x3344, 0x11223344])
        machine.store(0x05000012, 0xAABB, 2)
        self.assertEqual(machine.wram[0x10:0x14], b"\x44\x33\xBB\xAA")
        machine.store(0x0005F870, 3, 2)
        self.assertEqual(machine.drawing.bkcol, 3)
        with self.assertRaises(ValueError):
            machine.load(0, 3)

    def test_it_draws(self):
        machine = self.machine()
        machine.vram[0x3D800 + 31 * 32] = 0x40  # END: every pixel is BKCOL
        machine.drawing.bkcol = 2
        machine.draw_frame(1)
        machine.vram[0x8000 + 64 * 5 + 1] = 0x80  # pixel (5, 7) becomes 2, (5, 4) to (5, 6) become 0
        image = machine.pixels(1, 0)
        self.assertEqual((len(image), len(image[0])), (224, 384))
        expected = [[machine.pixel(1, 0, x, y) for x in range(384)] for y in range(224)]
        self.assertEqual([list(row) for row in image], expected)
        self.assertEqual((image[7][5], image[4][5], image[0][0]), (2, 0, 2))
        self.assertEqual(set(map(int, set(machine.pixels(0, 1)[0]))), {0})
        with self.assertRaises(OverflowError):
            machine.pixels(2, 0)

    def test_images_are_the_same_without_numpy(self):
        vram = bytearray(os.urandom(262144))
        there, vb.numpy = vb.numpy, None
        try:
            plain = [vb.pixels(vram, frame, eye) for frame in (0, 1) for eye in (0, 1)]
        finally:
            vb.numpy = there
        self.assertEqual(plain[3][200][300], vb.pixel(vram, 1, 1, 300, 200))
        if there is not None:
            arrays = [vb.pixels(vram, frame, eye) for frame in (0, 1) for eye in (0, 1)]
            self.assertEqual([[bytes(row) for row in image] for image in arrays], plain)
            self.assertEqual((arrays[0].shape, arrays[0].dtype.name), ((224, 384), "uint8"))

    def test_it_saves_and_restores(self):
        machine = self.machine(3 * ADD_1_R1 + HALT)
        machine.run(2)
        machine.wram[5] = 9
        machine.processor.hardware.lines = vb.VB_LINE_PAD
        state, before = machine.save(), machine.processor.copy()
        machine.run(9)
        machine.wram[5] = 0
        machine.restore(state)
        self.assertEqual((machine.processor, machine.wram[5]), (before, 9))
        with self.assertRaises(vb.Refusal) as caught:
            machine.restore(state[:-1])
        self.assertEqual((caught.exception.number, machine.processor), (9, before))

    def test_it_replays_and_ticks(self):
        machine = self.machine(ADD_1_R1 + HALT)
        record = struct.pack("<4I", 0xFFFFFFF0, 0xFFFFFFF2, 0x8000, 1)
        replayed = machine.replay(record)
        self.assertEqual((replayed.answer, replayed.agreed, machine.processor.regs[1]), (vb.VB_REPLAY_AGREED, 1, 1))
        machine.processor.hardware.count = 2
        machine.processor.hardware.control = vb.VB_T_ENB
        machine.tick()
        self.assertEqual(machine.processor.hardware.count, 1)

    def test_a_refusal_is_an_error_with_its_number(self):
        with self.assertRaises(vb.Refusal) as caught:
            vb.Machine(bytes(1000)).step()
        self.assertEqual(caught.exception.number, 1)
        self.assertIn("refusal 1: ROM's length", str(caught.exception))
        machine = self.machine(ADD_1_R1 + b"\x00\x7C")
        with self.assertRaises(vb.Refusal) as caught:
            machine.run(9)
        self.assertEqual((caught.exception.number, caught.exception.count, machine.processor.regs[1]), (6, 1, 1))
        with self.assertRaises(OverflowError):
            machine.run(-1)
        with self.assertRaises(TypeError):
            vb.Machine(bytes(1024), wram=bytes(65536))
        with self.assertRaises(ValueError):
            vb.Machine(bytes(1024), vram=machine.vram, wram=memoryview(machine.vram)[:65536])


FAST_MATH = """
#include <xmmintrin.h>
unsigned get(void) { return _mm_getcsr(); }
void set(unsigned to) { _mm_setcsr(to); }
"""

# Loads a shared object built with -ffast-math, which sets FTZ and DAZ, before the library; then all eight floating
# instructions in many environments, against the answers of the default one.
ENVIRONMENTS = r"""
import ctypes, struct, sys
fast = ctypes.CDLL(sys.argv[1])
loaded = fast.get()
import vb
words = [0x80000000, 0x3F800000, 0x3F000000, 0x40400000, 0x33000000, 0x00FFFFFF, 0x7F7FFFFF, 1, 0xCF000001, 0x01000001]
masks = [0, 0x80, 0x100, 0x200, 0x400, 0x800, 0x1000, 0x1F80]
environments = [0x1F80 & ~mask | mode << 13 | zeros | flags
                for mask in masks for mode in range(4) for zeros in (0, 0x8040) for flags in (0, 0x3F)]
rom, wram, vram = 512 * b"\x00\x68", bytearray(65536), bytearray(262144)
drawing, processor = vb.vb_drawing(), vb.vb_reset().processor
processor.pc, processor.psw = 0x05000100, 0
buffers = (rom, wram, vram, None)
calls = 0
for operation in (64, 66, 67, 68, 69, 70, 71, 75):
    encoded = vb.vb_encode(vb.vb_instruction(operation, 6, 5))
    wram[0x100:0x106] = struct.pack("<3H", encoded.first, encoded.second, 0x6800)
    for n, word in enumerate(words):
        processor.regs[5], processor.regs[6] = word, words[(3 * n + operation) % len(words)]
        fast.set(0x1F80)
        expected = vb.vb_step(*buffers, processor, drawing)
        after = expected.processor
        trace = struct.pack("<4I", processor.pc, after.pc, after.psw, sum(after.regs) & 0xFFFFFFFF)
        ran = vb.vb_run(*buffers, processor, drawing, 2)
        for environment in [loaded] + environments:
            fast.set(environment)
            seen = vb.vb_step(*buffers, processor, drawing)
            one = fast.get()
            seen_run = vb.vb_run(*buffers, processor, drawing, 2)
            two = fast.get()
            replayed = vb.vb_replay(*buffers, processor, drawing, trace)
            three = fast.get()
            fast.set(0x1F80)
            assert (seen, seen_run.processor) == (expected, ran.processor), (operation, hex(word), hex(environment))
            assert (replayed.answer, replayed.processor) == (1, after), (operation, hex(word), hex(environment))
            assert one == two == three == environment, (hex(one), hex(two), hex(three), hex(environment))
            calls += 3
print(hex(loaded), calls)
"""


class Environments(unittest.TestCase):
    def test_floating_instructions_answer_the_same_after_a_fast_math_library_was_loaded(self):
        with tempfile.TemporaryDirectory() as folder:
            source, shared = pathlib.Path(folder) / "fast.c", pathlib.Path(folder) / "fast.so"
            source.write_text(FAST_MATH)
            compiler = os.environ.get("CC", "cc")
            subprocess.run([compiler, "-O2", "-ffast-math", "-shared", "-fPIC", "-o", shared, source], check=True)
            environment = dict(os.environ, PYTHONPATH=str(pathlib.Path(__file__).parent))
            command = [sys.executable, "-B", "-c", ENVIRONMENTS, shared]
            ran = subprocess.run(command, env=environment, capture_output=True, text=True)
        self.assertEqual(ran.returncode, 0, ran.stderr)
        loaded, calls = ran.stdout.split()
        self.assertEqual(int(loaded, 0) & 0x8040, 0x8040, "loading the library sets FTZ and DAZ")
        self.assertGreater(int(calls), 30000)


if __name__ == "__main__":
    unittest.main()
