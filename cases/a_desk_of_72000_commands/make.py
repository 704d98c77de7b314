"""The first ten commands of a desk, whose eighth completes a board of 5,000 pieces."""
from spelling import accepted, message, write

names = [f"R{n}" for n in range(1, 5_001)]
row = {"Slot": "1", "PartNumber": "P", "Designators": names}
write(
    [
        (message("u1", "PartDefined", PartNumber="P"), accepted(1, "u1")),
        (message("u2", "SheetDefined", Product="PR", Machine="M", Rows=[row]), accepted(2, "u2")),
        (message("u3", "ProductSelected", Machine="M", Product="PR"), accepted(3, "u3")),
        (
            message(
                "u4",
                "ReelReceived",
                Reel="K1",
                PartNumber="P",
                Lot="L1",
                Level="1",
                Quantity=10_000_000,
            ),
            accepted(4, "u4"),
        ),
        (
            message("u5", "MaterialsLoaded", Machine="M", Slot="1", Reel="K1"),
            accepted(5, "u5", MinutesLeft=None),
        ),
        (message("u6", "WorkStarted", Machine="M", Board="B1"), accepted(6, "u6")),
        (
            message("u7", "MaterialsInstalled", Machine="M", Board="B1", Designators=names),
            accepted(7, "u7", Reels=["K1"] * 5_000),
        ),
        (message("u8", "WorkCompleted", Machine="M", Board="B1"), accepted(8, "u8")),
        (
            message(
                "u9", "ReelReceived", Reel="K9", PartNumber="P", Lot="L2", Level="1", Quantity=9
            ),
            accepted(9, "u9"),
        ),
        (message("u10", "PartDefined", PartNumber="P10"), accepted(10, "u10")),
    ]
)
