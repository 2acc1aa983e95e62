"""Tries what bench/release wrote into FOLDER, where there is neither the kit nor the repository. It unpacks the archive
in an empty root, with the loader and the libraries that the program names and nothing else. There it runs each example
and compares the reports, and asks for a story of one with the archive's own tools. With ROOT it installs the Debian
package there and does the same. The last line is 'N passed, M failed'.
"""
import script


def add_to(arguments):
    arguments.add_argument("folder", metavar="FOLDER", help="a release")
    arguments.add_argument("root", nargs="?", metavar="ROOT", help="a folder that debootstrap filled, in some minutes: "
                           "debootstrap --variant=minbase --include=python3,jq bookworm ROOT")


def main(given):
    return script.run_shell("tries/release.sh", given.folder, *([given.root] if given.root else []))
