"""Reads an STDF V4 file by the record layouts of the standard and prints a line of JSON for each record.

It is written apart from the tool's writer: a file that it reads to the end, with every field where the layout has it, is
one that other readers read too."""

import json
import struct
import sys

# names and types of the fields, in order; U, I: whole numbers, C1: a character, B1: a byte of bits, Cn: a length and
# characters, Dn: a bit count and bits, Bn: a length and bytes, k*: as many as the named field says
LAYOUTS = {
    (0, 10): ("FAR", "CPU_TYPE U1 STDF_VER U1"),
    (0, 20): ("ATR", "MOD_TIM U4 CMD_LINE Cn"),
    (1, 10): ("MIR", "SETUP_T U4 START_T U4 STAT_NUM U1 MODE_COD C1 RTST_COD C1 PROT_COD C1 BURN_TIM U2 CMOD_COD C1 "
                     "LOT_ID Cn PART_TYP Cn NODE_NAM Cn TSTR_TYP Cn JOB_NAM Cn JOB_REV Cn SBLOT_ID Cn OPER_NAM Cn "
                     "EXEC_TYP Cn EXEC_VER Cn TEST_COD Cn TST_TEMP Cn USER_TXT Cn AUX_FILE Cn PKG_TYP Cn FAMLY_ID Cn "
                     "DATE_COD Cn FACIL_ID Cn FLOOR_ID Cn PROC_ID Cn OPER_FRQ Cn SPEC_NAM Cn SPEC_VER Cn FLOW_ID Cn "
                     "SETUP_ID Cn DSGN_REV Cn ENG_ID Cn ROM_COD Cn SERL_NUM Cn SUPR_NAM Cn"),
    (1, 20): ("MRR", "FINISH_T U4 DISP_COD C1 USR_DESC Cn EXC_DESC Cn"),
    (1, 30): ("PCR", "HEAD_NUM U1 SITE_NUM U1 PART_CNT U4 RTST_CNT U4 ABRT_CNT U4 GOOD_CNT U4 FUNC_CNT U4"),
    (1, 40): ("HBR", "HEAD_NUM U1 SITE_NUM U1 HBIN_NUM U2 HBIN_CNT U4 HBIN_PF C1 HBIN_NAM Cn"),
    (1, 50): ("SBR", "HEAD_NUM U1 SITE_NUM U1 SBIN_NUM U2 SBIN_CNT U4 SBIN_PF C1 SBIN_NAM Cn"),
    (2, 10): ("WIR", "HEAD_NUM U1 SITE_GRP U1 START_T U4 WAFER_ID Cn"),
    (2, 20): ("WRR", "HEAD_NUM U1 SITE_GRP U1 FINISH_T U4 PART_CNT U4 RTST_CNT U4 ABRT_CNT U4 GOOD_CNT U4 FUNC_CNT U4 "
                     "WAFER_ID Cn FABWF_ID Cn FRAME_ID Cn MASK_ID Cn USR_DESC Cn EXC_DESC Cn"),
    (5, 10): ("PIR", "HEAD_NUM U1 SITE_NUM U1"),
    (5, 20): ("PRR", "HEAD_NUM U1 SITE_NUM U1 PART_FLG B1 NUM_TEST U2 HARD_BIN U2 SOFT_BIN U2 X_COORD I2 Y_COORD I2 "
                     "TEST_T U4 PART_ID Cn PART_TXT Cn PART_FIX Bn"),
    (10, 30): ("TSR", "HEAD_NUM U1 SITE_NUM U1 TEST_TYP C1 TEST_NUM U4 EXEC_CNT U4 FAIL_CNT U4 ALRM_CNT U4 TEST_NAM Cn "
                      "SEQ_NAME Cn TEST_LBL Cn OPT_FLAG B1"),
    (15, 20): ("FTR", "TEST_NUM U4 HEAD_NUM U1 SITE_NUM U1 TEST_FLG B1 OPT_FLAG B1 CYCL_CNT U4 REL_VADR U4 REPT_CNT U4 "
                      "NUM_FAIL U4 XFAIL_AD I4 YFAIL_AD I4 VECT_OFF I2 RTN_ICNT U2 PGM_ICNT U2 RTN_INDX kU2:RTN_ICNT "
                      "RTN_STAT kN1:RTN_ICNT PGM_INDX kU2:PGM_ICNT PGM_STAT kN1:PGM_ICNT FAIL_PIN Dn VECT_NAM Cn "
                      "TIME_SET Cn OP_CODE Cn TEST_TXT Cn ALARM_ID Cn PROG_TXT Cn RSLT_TXT Cn PATG_NUM U1 SPIN_MAP Dn"),
    (50, 30): ("DTR", "TEXT_DAT Cn"),
}
NUMBERS = {"U1": "<B", "U2": "<H", "U4": "<I", "I2": "<h", "I4": "<i", "B1": "<B"}


class Body:
    """A record's bytes, taken from the front."""

    def __init__(self, data):
        self.data, self.at = data, 0

    def take(self, count):
        piece = self.data[self.at:self.at + count]
        if len(piece) != count:
            raise ValueError("the record ends inside a field")
        self.at += count
        return piece

    def field(self, kind, fields):
        if kind in NUMBERS:
            return struct.unpack(NUMBERS[kind], self.take(struct.calcsize(NUMBERS[kind])))[0]
        if kind == "C1":
            return self.take(1).decode("ascii")
        if kind == "Cn":
            return self.take(self.take(1)[0]).decode("ascii")
        if kind == "Bn":
            return self.take(self.take(1)[0]).hex()
        if kind == "Dn":
            bits = struct.unpack("<H", self.take(2))[0]
            return self.take((bits + 7) // 8).hex()
        kind, count = kind[1:].split(":")
        count = fields[count]
        return self.take(2 * count if kind == "U2" else (count + 1) // 2).hex()


def records(data):
    at = 0
    while at < len(data):
        length, kind, sub = struct.unpack_from("<HBB", data, at)
        body = Body(data[at + 4:at + 4 + length])
        if len(body.data) != length:
            raise ValueError("the file ends inside a record")
        name, layout = LAYOUTS[(kind, sub)]
        fields = {"record": name}
        words = layout.split()
        for field, kind in zip(words[::2], words[1::2]):
            # a record may end early: the fields that are left out have their defaults
            if body.at == length:
                break
            fields[field] = body.field(kind, fields)
        if body.at != length:
            raise ValueError(name + " has bytes after its last field")
        yield fields
        at += 4 + length


def main():
    with open(sys.argv[1], "rb") as file:
        for record in records(file.read()):
            print(json.dumps(record))


main()
