"""Tables as spreadsheets, ERPs and placement programs write them, with the bodies of their
messages. They are made up by us after what such programs are known to write: none is of a vendor.
"""
from typing import Any

REELS_OF_SAP = """Rolle\tMaterial\tLieferantencharge\tMSL\tMenge\tBestellung
4711-1\tCAP-100N\tL-77\t3\t4.000,000\t45/17
4711-2\tRES 10K\tL-78\t1\t150\t
"""
REELS: list[dict[str, Any]] = [
    {"Reel": "4711-1", "PartNumber": "CAP-100N", "Lot": "L-77", "Level": "3", "Quantity": 4000},
    {"Reel": "4711-2", "PartNumber": "RES 10K", "Lot": "L-78", "Level": "1", "Quantity": 150},
]
SAP = [{**REELS[0], "Order": "45/17"}, REELS[1]]
PARTS = [{"PartNumber": "CAP-100N"}, {"PartNumber": "RES 10K"}]
SHEET = {
    "Product": "CTRL-A",
    "Machine": "M1",
    "Rows": [
        {"Slot": "1", "PartNumber": "CAP-100N", "Designators": ["C1", "C2"]},
        {"Slot": "2", "PartNumber": "RES 10K", "Designators": ["R1"]},
    ],
}
OF_BOARD = {"Product": '"CTRL-A"', "Machine": '"M1"'}
PLACED = """Ref;X;Y;Rot;Comp;Feeder
C1;1,5;2,25;90;CAP-100N;1
R1;7;2;0;RES 10K;2
C2;9;2;0;CAP-100N;1
"""

# Of each file: what wrote it, its kind, its bytes, a mapping, and the bodies of its messages.
FILES: list[tuple[str, str, bytes, dict[str, str], list[Any]]] = [
    (
        "a German Excel",
        "parts",
        "Teilenummer;Größe\r\nCAP-100N;5\r\nRES 10K;\r\n".encode("cp1252"),
        {},
        PARTS,
    ),
    (
        "Excel's UTF-8",
        "parts",
        b"\xef\xbb\xbf" b'Part Number,Name\r\nCAP-100N,"C, 100n"\r\nRES 10K,R\r\n',
        {},
        PARTS,
    ),
    (
        "Excel's Unicode text",
        "parts",
        "Part\tName\r\nCAP-100N\tü\r\nRES 10K\tR\r\n".encode("utf-16"),
        {},
        PARTS,
    ),
    ("Excel with sep=", "parts", b"sep=;\r\nMaterial;x\r\nCAP-100N;1\r\nRES 10K;2\r\n", {}, PARTS),
    (
        "a sheet with empty rows",
        "parts",
        b";\r\nMaterial;\r\nCAP-100N;\r\n;\r\nRES 10K;\r\n;;\r\n",
        {},
        PARTS,
    ),
    (
        "LibreOffice, all quoted",
        "parts",
        b'"PartNumber"\n"CAP-100N"\n"RES 10K"\n"CAP-100N"\n',
        {},
        PARTS,
    ),
    (
        "a list without a usual name",
        "parts",
        b"MATNR|MAKTX\nCAP-100N|C\nRES 10K|R\n",
        {"PartNumber": "MATNR"},
        PARTS,
    ),
    ("SAP, tabs", "reels", REELS_OF_SAP.encode("cp1252"), {}, SAP),
    ("SAP, UTF-16", "reels", REELS_OF_SAP.encode("utf-16"), {}, SAP),
    (
        "a goods receipt",
        "reels",
        b"Charge;Material;Rolle;Menge\nL-77;CAP-100N;4711-1;4.000,00\nL-78;RES 10K;4711-2;150,0\n",
        {"Level": '"3"'},
        [REELS[0], {**REELS[1], "Level": "3"}],
    ),
    (
        "an American ERP",
        "reels",
        b'"Batch","Material","Lot Number","MSL","Stock"\n'
        b'"4711-1","CAP-100N","L-77","3","4,000.00"\n',
        {},
        REELS[:1],
    ),
    (
        "attributes of a delivery",
        "reels",
        "Reel,Part,Lot,Level,Qty,Date Code,Vendor,MPN\nK,P,L,1,5,2614,Händler,X/Y\n".encode(),
        {},
        [
            {
                "Reel": "K",
                "PartNumber": "P",
                "Lot": "L",
                "Level": "1",
                "Quantity": 5,
                "DateCode": "2614",
                "Supplier": "Händler",
                "MakerPart": "X/Y",
            }
        ],
    ),
    (
        "level 6 has a label",
        "reels",
        b"Reel;Part;Lot;MSL;Qty;Label minutes\nA;P;L;6;5;2880\nB;P;L;3;5;9\n",
        {},
        [
            {
                "Reel": "A",
                "PartNumber": "P",
                "Lot": "L",
                "Level": "6",
                "Quantity": 5,
                "LabelMinutes": 2880,
            },
            {"Reel": "B", "PartNumber": "P", "Lot": "L", "Level": "3", "Quantity": 5},
        ],
    ),
    (
        "a list of substitutes",
        "alternates",
        b"Material;Ersatz\r\nCAP-100N;CAP-100N-B\r\n",
        {},
        [{"PartNumber": "CAP-100N", "Alternate": "CAP-100N-B"}],
    ),
    (
        "an approved list",
        "alternates",
        b"part,alternate,approved by\nA,B,me\nA,C,me\nA,B,you\n",
        {},
        [{"PartNumber": "A", "Alternate": "B"}, {"PartNumber": "A", "Alternate": "C"}],
    ),
    ("a placement program, ;", "placements", PLACED.encode(), OF_BOARD, [SHEET]),
    (
        "a placement program, tabs",
        "placements",
        PLACED.replace(";", "\t").encode("cp1252"),
        OF_BOARD,
        [SHEET],
    ),
    (
        "several designators in a field",
        "placements",
        b"Slot,Part,Designators,Program,Module\n"
        b'1,CAP-100N,"C1, C2",CTRL-A,M1\n2,RES 10K,R1,CTRL-A,M1\n',
        {},
        [SHEET],
    ),
    (
        "two machines in one file",
        "placements",
        b"Job;Machine;Slot;Part;RefDes\nX;M1;1;P;C1\nX;M2;1;Q;C2\nX;M1;1;P;C3\n",
        {},
        [
            {
                "Product": "X",
                "Machine": "M1",
                "Rows": [{"Slot": "1", "PartNumber": "P", "Designators": ["C1", "C3"]}],
            },
            {
                "Product": "X",
                "Machine": "M2",
                "Rows": [{"Slot": "1", "PartNumber": "Q", "Designators": ["C2"]}],
            },
        ],
    ),
    (
        "names of its own",
        "placements",
        b"#;Bauteil;Spur;Name\n1;P;7;C1\n",
        {**OF_BOARD, "PartNumber": "Bauteil", "Slot": "Spur", "Designator": "Name"},
        [
            {
                "Product": "CTRL-A",
                "Machine": "M1",
                "Rows": [{"Slot": "7", "PartNumber": "P", "Designators": ["C1"]}],
            }
        ],
    ),
]
