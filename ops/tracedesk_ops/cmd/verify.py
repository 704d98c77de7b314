"""Verifies the evidence of a recall: who signed it, that nothing in it was changed, and its answer.

usage: tracedesk-verify FOLDER --signers FILE [--signer NAME] [--archives FOLDER].. [--program FILE]

examples:
  tracedesk-verify L-77 --signers plant.signers
  tracedesk-verify L-77 --signers plant.signers --archives /var/lib/tracedesk/sealed

FOLDER is what tracedesk-recall --evidence wrote. SHA256SUMS must have a signature by a key of FILE:
nothing else is read before. Each file that it names must be there with its checksum, and no other.
With the archives at hand tracedesk-chain is asked again, and must name the same pieces, which are
those of the boards. A running desk has gone on since: its part is not asked again.
Standard error names the question, its time and lines, and whether the answer is complete.

--signers FILE     whose signatures count: lines as `plant namespaces="tracedesk-recall" ssh-ed25519
                   AAAA..`, which the plant gives you by another way than with the evidence
--signer NAME      whose signature it must be, if FILE has several names
--archives FOLDER  where archives of the certificate are; may be given several times
--program FILE     tracedesk, next to which is tracedesk-chain

Without our tools: ssh-keygen -Y verify -f FILE -I plant -n tracedesk-recall -s SHA256SUMS.sig <
SHA256SUMS
and then:          sha256sum --check --strict SHA256SUMS

Exit status: 0 verified; 1 refused: the plant didn't sign it, something was changed, or the answer
doesn't come again; 2 bad command line; 3 tracedesk-chain gives no answer; 9 an unexpected failure.
"""
from __future__ import annotations

import argparse
import pathlib
import sys

from tracedesk_ops import chains, files, options, plant, reader_of
from tracedesk_ops.recalls import verifying

GENUINE, REFUSED, NOT_KNOWN = 0, 1, 3


def parse() -> argparse.Namespace:
    reader = reader_of(__doc__)
    reader.add_argument("folder", type=pathlib.Path, metavar="FOLDER", help="the evidence")
    reader.add_argument("--signers", type=pathlib.Path, metavar="FILE", required=True)
    reader.add_argument("--signer", default="", metavar="NAME")
    reader.add_argument(
        "--archives", type=pathlib.Path, action="append", default=[], metavar="FOLDER"
    )
    options.offer_program(reader)
    words = reader.parse_args()
    for folder in (words.folder, *words.archives):
        if not folder.is_dir():
            reader.error(f"there is no folder {folder}")
    if not words.signers.is_file():
        reader.error(f"there is no file {words.signers}")
    return words


def verify(words: argparse.Namespace) -> int:
    who, contents = verifying.signed(words.folder, words.signers, words.signer)
    told = verifying.told_in(contents)
    plant.tell(f"signed by {who}")
    with files.Room() as room:
        its = (contents, told, words.archives, words.program, pathlib.Path(room))
        for text in verifying.again(*its) if words.archives else ():
            plant.tell(text)
    plant.tell(verifying.said(told))
    print("verified")
    return GENUINE


def main() -> int:
    words = parse()
    try:
        return verify(words)
    except verifying.Refused as fault:
        plant.tell(f"REFUSED: {fault}")
        return REFUSED
    except (chains.NoAnswer, plant.Fault, OSError) as fault:
        plant.tell(f"NOT KNOWN: {fault}")
        return NOT_KNOWN


if __name__ == "__main__":
    sys.exit(main())
