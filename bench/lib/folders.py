"""In which folder of a crate's specs/ a definition is: in rule/ what the contracts of a replay reach, and in state/
all else. A crate on which no replay stands yet has in rule/ what its contracts will be reached by: there this isn't
asked."""
import glob

from crates import standing_below
from reach import RULE, STATE, bare

# the crate whose contracts are those of a replay
REPLAY = "kubelet_replay"

# they name the files, and have no definition of their own
NAMING = ("Lib.antt", f"{RULE}.antt", f"{STATE}.antt")


def files_in(repository, crate):
    """The files of a crate's specs/, each named from there."""
    return sorted(glob.glob("**/*.antt", root_dir=f"{repository.top}/crates/{crate}/specs", recursive=True))


def is_in_folder(file):
    return file.startswith((f"{RULE}/", f"{STATE}/"))


def faults_in(repository, crate, file, places, is_used):
    """What is wrong with the place of a file, or of its definitions. What is reached has its place among these; of a
    crate that no replay uses yet, nothing is."""
    path, module = f"crates/{crate}/specs/{file}", file.removesuffix(".antt").replace("/", ".")
    read = repository.module(crate, module)
    # a definition without a word before its name can be named by those next to it
    faults = [f"{path}:{line}: {text} is no definition that is read: it begins with pub, abbrev or unfoldable"
              for line, text in read.unread]
    if file in NAMING:
        return faults + [f"{path}:{found.line}: {found.name} is defined where files are named alone"
                         for found in read.definitions]
    if not is_in_folder(file):
        return [f"{path} is in neither specs/{RULE} nor specs/{STATE}"]
    for definition in read.definitions:
        is_reached = ((crate, bare(module), definition.name), path) in places
        if is_reached != file.startswith(f"{RULE}/") and (is_used or is_reached):
            fault, folder = ("is reached", RULE) if is_reached else ("is not reached", STATE)
            faults.append(f"{path}:{definition.line}: {definition.name} {fault}, so it belongs in specs/{folder}")
    return faults


def misplaced(repository, nodes):
    """What is in the wrong folder, crate by crate; the nodes are what the contracts of a replay reach."""
    places = {(node.key, node.path) for node in nodes.values()}
    below = {name: crate.below for name, crate in repository.crates.items()}
    used = standing_below(below, REPLAY) if REPLAY in below else set(below)
    return [fault for crate in repository.crates for file in files_in(repository, crate)
            for fault in faults_in(repository, crate, file, places, crate in used)]
