"""Types of the module vb. Records, numbers and calls are those of vb.h, under its names."""

from typing import Any, Final, List, Optional

from ctypes import Array, Structure

Buffer = Any  # bytes, bytearray, memoryview, array, mmap, numpy array: one piece of bytes
ReadBuffer = Optional[Buffer]  # read only, or None for no bytes
WriteBuffer = Optional[Buffer]  # a writable one, or None for no bytes

HEADER: Any
RECORDS: List[type]
CALLS: List[str]
COLUMNS: Final = 384
ROWS: Final = 224

class Refusal(ValueError):
    number: int
    count: int
    def __init__(self, number: int, count: int = 0) -> None: ...

def pixel(vram: Buffer, frame: int, eye: int, x: int, y: int) -> int: ...
def pixels(vram: Buffer, frame: int, eye: int) -> Any: ...

class Machine:
    rom: Buffer
    wram: Buffer
    vram: Buffer
    pak: Optional[Buffer]
    processor: vb_processor
    drawing: vb_drawing
    def __init__(
        self, rom: Buffer, wram: Optional[Buffer] = None, vram: Optional[Buffer] = None, pak: Optional[Buffer] = None
    ) -> None: ...
    def reset(self) -> None: ...
    def step(self) -> vb_stepped: ...
    def run(self, budget: int) -> int: ...
    def replay(self, trace: Buffer) -> vb_replayed: ...
    def tick(self) -> None: ...
    def load(self, address: int, size: int = 4) -> int: ...
    def store(self, address: int, value: int, size: int = 4) -> None: ...
    def draw_frame(self, frame: int) -> None: ...
    def pixel(self, frame: int, eye: int, x: int, y: int) -> int: ...
    def pixels(self, frame: int, eye: int) -> Any: ...
    def save(self) -> bytes: ...
    def restore(self, state: Buffer) -> None: ...

class vb_hardware(Structure):
    lines: int
    count: int
    reload: int
    control: int
    def __init__(self, *values: Any, **fields: Any) -> None: ...
    def copy(self) -> vb_hardware: ...

class vb_processor(Structure):
    regs: Array[Any]
    pc: int
    eipc: int
    eipsw: int
    fepc: int
    fepsw: int
    ecr: int
    psw: int
    sr25: int
    sr29: int
    sr31: int
    mode: int
    hardware: vb_hardware
    def __init__(self, *values: Any, **fields: Any) -> None: ...
    def copy(self) -> vb_processor: ...

class vb_drawing(Structure):
    spt: Array[Any]
    gplt: Array[Any]
    jplt: Array[Any]
    bkcol: int
    def __init__(self, *values: Any, **fields: Any) -> None: ...
    def copy(self) -> vb_drawing: ...

class vb_loaded(Structure):
    refusal: int
    value: int
    undefined: int
    def __init__(self, *values: Any, **fields: Any) -> None: ...
    def copy(self) -> vb_loaded: ...

class vb_stored(Structure):
    refusal: int
    drawing: vb_drawing
    hardware: vb_hardware
    def __init__(self, *values: Any, **fields: Any) -> None: ...
    def copy(self) -> vb_stored: ...

class vb_undefined(Structure):
    first: int
    second: int
    load: int
    def __init__(self, *values: Any, **fields: Any) -> None: ...
    def copy(self) -> vb_undefined: ...

class vb_stepped(Structure):
    refusal: int
    answer: int
    code: int
    undefined: vb_undefined
    processor: vb_processor
    drawing: vb_drawing
    def __init__(self, *values: Any, **fields: Any) -> None: ...
    def copy(self) -> vb_stepped: ...

class vb_ran(Structure):
    refusal: int
    count: int
    processor: vb_processor
    drawing: vb_drawing
    def __init__(self, *values: Any, **fields: Any) -> None: ...
    def copy(self) -> vb_ran: ...

class vb_machine(Structure):
    processor: vb_processor
    drawing: vb_drawing
    def __init__(self, *values: Any, **fields: Any) -> None: ...
    def copy(self) -> vb_machine: ...

class vb_ticked(Structure):
    refusal: int
    hardware: vb_hardware
    def __init__(self, *values: Any, **fields: Any) -> None: ...
    def copy(self) -> vb_ticked: ...

class vb_part(Structure):
    refusal: int
    offset: int
    length: int
    def __init__(self, *values: Any, **fields: Any) -> None: ...
    def copy(self) -> vb_part: ...

class vb_listed(Structure):
    refusal: int
    count: int
    def __init__(self, *values: Any, **fields: Any) -> None: ...
    def copy(self) -> vb_listed: ...

class vb_restored(Structure):
    refusal: int
    processor: vb_processor
    drawing: vb_drawing
    def __init__(self, *values: Any, **fields: Any) -> None: ...
    def copy(self) -> vb_restored: ...

class vb_salvaged(Structure):
    refusal: int
    replaced: int
    kinds: Array[Any]
    contents_differ: int
    def __init__(self, *values: Any, **fields: Any) -> None: ...
    def copy(self) -> vb_salvaged: ...

class vb_instruction(Structure):
    operation: int
    reg1: int
    reg2: int
    condition: int
    immediate: int
    def __init__(self, *values: Any, **fields: Any) -> None: ...
    def copy(self) -> vb_instruction: ...

class vb_encoded(Structure):
    refusal: int
    halfwords: int
    first: int
    second: int
    def __init__(self, *values: Any, **fields: Any) -> None: ...
    def copy(self) -> vb_encoded: ...

class vb_decoded(Structure):
    refusal: int
    halfwords: int
    instruction: vb_instruction
    def __init__(self, *values: Any, **fields: Any) -> None: ...
    def copy(self) -> vb_decoded: ...

class vb_access(Structure):
    address: int
    size: int
    write: int
    value: int
    undefined: int
    def __init__(self, *values: Any, **fields: Any) -> None: ...
    def copy(self) -> vb_access: ...

class vb_replayed(Structure):
    refusal: int
    answer: int
    agreed: int
    word: int
    processor: vb_processor
    drawing: vb_drawing
    def __init__(self, *values: Any, **fields: Any) -> None: ...
    def copy(self) -> vb_replayed: ...

VB_VERSION: Final = 3
VB_MISUSE: Final = 255
VB_RUNNING: Final = 0
VB_HALTED: Final = 1
VB_FATAL: Final = 2
VB_ENDED: Final = 0
VB_TRAPPED: Final = 1
VB_TURNED_FATAL: Final = 2
VB_WAS_HALTED: Final = 3
VB_WAS_FATAL: Final = 4
VB_INTERRUPTED: Final = 5
VB_LINE_PAD: Final = 1
VB_LINE_TIMER: Final = 2
VB_LINE_PAK: Final = 4
VB_LINE_LINK: Final = 8
VB_LINE_VIP: Final = 16
VB_T_ENB: Final = 1
VB_Z_STAT: Final = 2
VB_TIM_Z_INT: Final = 8
VB_T_CLK_SEL: Final = 16
VB_OP_MOV: Final = 0
VB_OP_ADD: Final = 1
VB_OP_SUB: Final = 2
VB_OP_CMP: Final = 3
VB_OP_SHL: Final = 4
VB_OP_SHR: Final = 5
VB_OP_JMP: Final = 6
VB_OP_SAR: Final = 7
VB_OP_MUL: Final = 8
VB_OP_DIV: Final = 9
VB_OP_MULU: Final = 10
VB_OP_DIVU: Final = 11
VB_OP_OR: Final = 12
VB_OP_AND: Final = 13
VB_OP_XOR: Final = 14
VB_OP_NOT: Final = 15
VB_OP_MOV_IMM: Final = 16
VB_OP_ADD_IMM: Final = 17
VB_OP_CMP_IMM: Final = 19
VB_OP_SHL_IMM: Final = 20
VB_OP_SHR_IMM: Final = 21
VB_OP_SAR_IMM: Final = 23
VB_OP_SETF: Final = 18
VB_OP_TRAP: Final = 24
VB_OP_CLI: Final = 22
VB_OP_RETI: Final = 25
VB_OP_HALT: Final = 26
VB_OP_SEI: Final = 30
VB_OP_LDSR: Final = 28
VB_OP_STSR: Final = 29
VB_OP_BCOND: Final = 32
VB_OP_JR: Final = 42
VB_OP_JAL: Final = 43
VB_OP_MOVEA: Final = 40
VB_OP_ADDI: Final = 41
VB_OP_LD_B: Final = 48
VB_OP_LD_H: Final = 49
VB_OP_LD_W: Final = 51
VB_OP_ST_B: Final = 52
VB_OP_ST_H: Final = 53
VB_OP_ST_W: Final = 55
VB_OP_IN_B: Final = 56
VB_OP_IN_H: Final = 57
VB_OP_IN_W: Final = 59
VB_OP_OUT_B: Final = 60
VB_OP_OUT_H: Final = 61
VB_OP_OUT_W: Final = 63
VB_OP_ORI: Final = 44
VB_OP_ANDI: Final = 45
VB_OP_XORI: Final = 46
VB_OP_MOVHI: Final = 47
VB_OP_CMPF_S: Final = 64
VB_OP_CVT_WS: Final = 66
VB_OP_CVT_SW: Final = 67
VB_OP_ADDF_S: Final = 68
VB_OP_SUBF_S: Final = 69
VB_OP_MULF_S: Final = 70
VB_OP_DIVF_S: Final = 71
VB_OP_XB: Final = 72
VB_OP_XH: Final = 73
VB_OP_REV: Final = 74
VB_OP_TRNC_SW: Final = 75
VB_OP_MPYHW: Final = 76
VB_OP_ILLEGAL: Final = 255
VB_REPLAY_REFUSED: Final = 0
VB_REPLAY_AGREED: Final = 1
VB_REPLAY_DIFFERED: Final = 2
VB_REPLAY_WAS_HALTED: Final = 3
VB_REPLAY_WAS_FATAL: Final = 4
VB_REPLAY_TURNED_FATAL: Final = 5

def vb_load_byte(
    rom: ReadBuffer, wram: ReadBuffer, vram: ReadBuffer, pak: ReadBuffer, drawing: vb_drawing, hardware: vb_hardware, address: int, /
) -> vb_loaded: ...
def vb_load_half(
    rom: ReadBuffer, wram: ReadBuffer, vram: ReadBuffer, pak: ReadBuffer, drawing: vb_drawing, hardware: vb_hardware, address: int, /
) -> vb_loaded: ...
def vb_load_word(
    rom: ReadBuffer, wram: ReadBuffer, vram: ReadBuffer, pak: ReadBuffer, drawing: vb_drawing, hardware: vb_hardware, address: int, /
) -> vb_loaded: ...
def vb_store_byte(
    rom: ReadBuffer, wram: WriteBuffer, vram: WriteBuffer, pak: WriteBuffer, drawing: vb_drawing, hardware: vb_hardware, address: int, value: int, /
) -> vb_stored: ...
def vb_store_half(
    rom: ReadBuffer, wram: WriteBuffer, vram: WriteBuffer, pak: WriteBuffer, drawing: vb_drawing, hardware: vb_hardware, address: int, value: int, /
) -> vb_stored: ...
def vb_store_word(
    rom: ReadBuffer, wram: WriteBuffer, vram: WriteBuffer, pak: WriteBuffer, drawing: vb_drawing, hardware: vb_hardware, address: int, value: int, /
) -> vb_stored: ...
def vb_step(
    rom: ReadBuffer, wram: WriteBuffer, vram: WriteBuffer, pak: WriteBuffer, processor: vb_processor, drawing: vb_drawing, /
) -> vb_stepped: ...
def vb_run(
    rom: ReadBuffer, wram: WriteBuffer, vram: WriteBuffer, pak: WriteBuffer, processor: vb_processor, drawing: vb_drawing, budget: int, /
) -> vb_ran: ...
def vb_reset() -> vb_machine: ...
def vb_tick(hardware: vb_hardware, /) -> vb_ticked: ...
def vb_draw_strip(vram: WriteBuffer, drawing: vb_drawing, frame: int, strip: int, /) -> int: ...
def vb_draw_frame(vram: WriteBuffer, drawing: vb_drawing, frame: int, /) -> int: ...
def vb_character(vram: ReadBuffer, character: int, /) -> vb_part: ...
def vb_pixel_bytes(
    vram: ReadBuffer, drawing: vb_drawing, eye: int, x: int, y: int, room: WriteBuffer, /
) -> vb_listed: ...
def vb_write_state(
    rom: ReadBuffer, wram: ReadBuffer, vram: ReadBuffer, pak: ReadBuffer, processor: vb_processor, drawing: vb_drawing, room: WriteBuffer, /
) -> int: ...
def vb_read_state(
    rom: ReadBuffer, wram: WriteBuffer, vram: WriteBuffer, pak: WriteBuffer, processor: vb_processor, drawing: vb_drawing, file: ReadBuffer, /
) -> vb_restored: ...
def vb_write_state_2(
    rom: ReadBuffer, wram: ReadBuffer, vram: ReadBuffer, pak: ReadBuffer, processor: vb_processor, drawing: vb_drawing, room: WriteBuffer, /
) -> int: ...
def vb_move_state(file: ReadBuffer, room: WriteBuffer, /) -> int: ...
def vb_salvage_state(file: ReadBuffer, room: WriteBuffer, /) -> vb_salvaged: ...
def vb_display(
    vram: ReadBuffer, frame: int, eye: int, start: int, brta: int, brtb: int, brtc: int, room: WriteBuffer, /
) -> int: ...
def vb_load_column_table(vram: WriteBuffer, /) -> int: ...
def vb_probe_byte(
    rom: ReadBuffer, wram: ReadBuffer, vram: WriteBuffer, pak: ReadBuffer, address: int, value: int, /
) -> int: ...
def vb_probe_half(
    rom: ReadBuffer, wram: ReadBuffer, vram: WriteBuffer, pak: ReadBuffer, address: int, value: int, /
) -> int: ...
def vb_probe_word(
    rom: ReadBuffer, wram: ReadBuffer, vram: WriteBuffer, pak: ReadBuffer, address: int, value: int, /
) -> int: ...
def vb_encode(instruction: vb_instruction, /) -> vb_encoded: ...
def vb_decode(first: int, second: int, /) -> vb_decoded: ...
def vb_access_list(
    rom: ReadBuffer, wram: WriteBuffer, vram: WriteBuffer, pak: WriteBuffer, drawing: vb_drawing, hardware: vb_hardware, list: WriteBuffer, /
) -> vb_stored: ...
def vb_replay(
    rom: ReadBuffer, wram: WriteBuffer, vram: WriteBuffer, pak: WriteBuffer, processor: vb_processor, drawing: vb_drawing, trace: ReadBuffer, /
) -> vb_replayed: ...
def vb_version() -> int: ...
def vb_version_text() -> str: ...
def vb_refusal_text(refusal: int, /) -> str: ...
