"""The three papers, taken down a second time for the tests: each number by the bit positions that its paper prints.

Shares nothing with crates/. A subfield is (name, octets, [(number, high bit, low bit, kind)]); kind is 'u' unsigned, 's' two's complement,
'lat' and 'ga' two's complement with the range that 01 checks. Every bit that no number covers is spare; in a chain part the lowest bit is FX.
Document 000 is category 048 edition 1.9, document 003 category 021 edition 1.5, document 004 category 007 edition 1.7.
"""


def u(name, hi, lo=None):
    return (name, hi, hi if lo is None else lo, "u")


def s(name, hi, lo):
    return (name, hi, lo, "s")


def flags(names, hi):
    """One-bit numbers from bit hi downwards."""
    return [u(n, hi - i) for i, n in enumerate(names.split())]


X_PULSE = ("XP", 1, flags("XP X5 XC X3 X2 X1", 6))
FOM = ("FOM", 1, [u("FOM", 5, 1)])
POSITION = ("POS", 6, [("LAT", 48, 25, "lat"), ("LON", 24, 1, "s")])
ALTITUDE = ("GA", 2, [u("RES", 15), ("GA", 14, 1, "ga")])
MODE_1 = ("EM1", 2, flags("V G L", 16) + [u("EM1", 12, 1)])
OFFSET = ("TOS", 1, [s("TOS", 8, 1)])
SUMMARY = ("SUM", 1, flags("M5 ID DA M1 M2 M3 MC", 8))
PRESENCE = flags("SUM PMN POS GA EM1 TOS XP", 8)

# Each item: (name, chain parts, subfields in the order of their presence bits). A part is (octets, numbers).
MD5 = ("MD5", [(1, PRESENCE)],
       [SUMMARY, ("PMN", 4, [u("PIN", 30, 17), u("NAV", 14), u("NAT", 13, 9), u("MIS", 6, 1)]),
        POSITION, ALTITUDE, MODE_1, OFFSET, X_PULSE])
M5N = ("M5N", [(1, PRESENCE), (1, [u("FOM", 8)])],
       [SUMMARY, ("PMN", 4, [u("PIN", 30, 17), u("NOV", 12), u("NO", 11, 1)]),
        POSITION, ALTITUDE, MODE_1, OFFSET, X_PULSE, FOM])
M4E = ("M4E", [(1, [u("FOE/FRI", 3, 2)])], [])
RPC = ("RPC", [(1, flags("SCO SCR RW AR", 8))],
       [("SCO", 1, [u("SCO", 8, 1)]), ("SCR", 2, [u("SCR", 16, 1)]), ("RW", 2, [u("RW", 16, 1)]), ("AR", 2, [u("AR", 16, 1)])])
ERR = ("ERR", [], [("ERR", 3, [u("RHO", 24, 1)])])

TA = ("TA", [], [("TA", 4, [s("TAmax", 30, 17), s("TAmin", 14, 1)])])

BPS = ("BPS", [], [("BPS", 2, [u("BPS", 12, 1)])])
SELH = ("SelH", [], [("SelH", 2, [u("HRD", 12), u("Stat", 11), u("SelH", 10, 1)])])
NAV = ("NAV", [], [("NAV", 1, flags("AP VN AH AM MFM#EP MFM#VAL", 8))])
GAO = ("GAO", [], [("GAO", 1, [u("Lateral", 8, 6), u("Longitudinal", 5, 1)])])
SGV = ("SGV", [(2, flags("STP HTS HTT HRD", 16) + [u("GSS", 12, 2)]), (1, [u("HGT", 8, 2)])], [])
STA = ("STA", [
    (1, [u("ES", 8), u("UAT", 7), u("RCE#EP", 6), u("RCE#VAL", 5, 4), u("RRL#EP", 3), u("RRL#VAL", 2)]),
    (1, [u("PS3#EP", 8), u("PS3#VAL", 7, 5), u("TPW#EP", 4), u("TPW#VAL", 3, 2)]),
    (1, [u("TSI#EP", 8), u("TSI#VAL", 7, 6), u("MUO#EP", 5), u("MUO#VAL", 4), u("RWC#EP", 3), u("RWC#VAL", 2)]),
    (1, [u("DAA#EP", 8), u("DAA#VAL", 7, 6), u("DF17CA#EP", 5), u("DF17CA#VAL", 4, 2)]),
    (1, [u("SVH#EP", 8), u("SVH#VAL", 7, 6), u("CATC#EP", 5), u("CATC#VAL", 4, 2)]),
    (1, [u("TAO#EP", 8), u("TAO#VAL", 7, 3)]),
], [])
TNH = ("TNH", [], [("TNH", 2, [u("TNH", 16, 1)])])
MES = ("MES", [(1, flags("SUM PNO EM1 XP FOM M2", 8))],
       [("SUM", 1, flags("M5 ID DA M1 M2 M3 MC PO", 8)), ("PNO", 4, [u("PIN", 30, 17), u("NO", 11, 1)]),
        ("EM1", 2, [u("V", 16), u("L", 14), u("EM1", 12, 1)]), X_PULSE, FOM,
        ("M2", 2, [u("V", 16), u("L", 14), u("M2", 12, 1)])])

PAPERS = {
    48: [MD5, M5N, M4E, RPC, ERR],
    21: [BPS, SELH, NAV, GAO, SGV, STA, TNH, MES],
    7: [TA, M5N, M4E, RPC, ERR],
}

# 2.2 of each paper, the items indicator, and the section of each item.
INDICATORS = {48: flags("MD5 M5N M4E RPC ERR", 8), 21: flags("BPS SelH NAV GAO SGV STA TNH MES", 8), 7: flags("TA M5N M4E RPC ERR", 8)}
SECTIONS = {
    48: {"MD5": "2.3", "M5N": "2.4", "M4E": "2.5", "RPC": "2.6", "ERR": "2.7"},
    21: {"BPS": "2.3", "SelH": "2.4", "NAV": "2.5", "GAO": "2.6", "SGV": "2.7", "STA": "2.8", "TNH": "2.9", "MES": "2.10"},
    7: {"TA": "2.3", "M5N": "2.4", "M4E": "2.5", "RPC": "2.6", "ERR": "2.7"},
}

# What one step of a number is, by the number's key on the sheet: (numerator, denominator, unit, what 0 stands for). No other number has a
# printed LSB. The units are printed as degrees or °, ft, s, db, NM, hPa, meters and kts.
MODE_5 = {"POS.LAT": (180, 2 ** 23, "degrees", 0), "POS.LON": (180, 2 ** 23, "degrees", 0),  # printed with its value, 2.145767*10-05
          "GA.GA": (25, 1, "ft", 0), "TOS": (1, 128, "s", 0)}
RADAR = {"RPC.SCR": (1, 10, "dB", 0), "RPC.RW": (1, 256, "NM", 0), "RPC.AR": (1, 256, "NM", 0), "ERR": (1, 256, "NM", 0)}
MEASURES = {
    **{(cat, f"{item}.{key}"): step for cat, item in ((48, "MD5"), (48, "M5N"), (7, "M5N")) for key, step in MODE_5.items()},
    **{(cat, key): step for cat in (48, 7) for key, step in RADAR.items()},
    (7, "TA.TAmax"): (25, 1, "ft", 0),
    (7, "TA.TAmin"): (25, 1, "ft", 0),
    (21, "BPS"): (1, 10, "hPa", 800),
    (21, "SelH.SelH"): (703125, 1000000, "", 0),  # "LSB = 0.703125", no unit
    (21, "GAO.Lateral"): (2, 1, "m", 0),
    (21, "GAO.Longitudinal"): (2, 1, "m", 0),
    (21, "SGV.GSS"): (125, 1000, "kt", 0),
    (21, "SGV.HGT"): (28125, 10000, "degrees", 0),
    (21, "TNH"): (360, 2 ** 16, "degrees", 0),  # "approx. 0.0055°"
}
