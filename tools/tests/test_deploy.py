"""The tests of what starts the recorder on nodes: its words are words of tools/record, and the token is where it is
read. No service manager starts anything."""

import contextlib
import json
import os
import re
import shlex
import shutil
import socket
import subprocess
import sys
import tarfile
import tempfile

import cases
from checks import HERE, LONGEST, TOOLS, TOP, expect, expect_refused, read, run
from test_connections import Kubelet, Place, has_openssl
from test_record import Recorder

from replay_tools.cluster import recorders
from replay_tools.record.observer import RUNTIME, Observer
from replay_tools.record.sources import Failed, Sources
from replay_tools.record.words import words_of

load_tests = cases.loaded(__name__)

DEPLOY = f"{TOP}/deploy"
SHOWS = '#!/bin/sh\nprintf "%s\\n" "$@"\nif [ -n "${SHOWN-}" ]; then cat "$SHOWN"; fi\n'


def settings_of(unit):
    """The settings of a unit, each with its values."""
    found = {}
    for line in unit.split("\n"):
        if "=" in line and not line.startswith("#"):
            name, _, value = line.partition("=")
            found.setdefault(name, []).append(value)
    return found


def test_unit():
    """Its command is one of the package, and its words are words of the recorder."""
    settings = settings_of(read(f"{DEPLOY}/kubelet-replay-recorder.service"))
    program, tool, *words = shlex.split(settings["ExecStart"][0])
    with tempfile.TemporaryDirectory() as folder:
        words = [folder if word == "/var/lib/kubelet-replay" else word for word in words if word != "$WORDS"]
        found = words_of([*words, "--node", "n1"])
        expect("the unit's words", (program, tool, found.into.folder, found.look),
               ("/usr/bin/kubelet-replay", "record", folder, 5))
    expect("the unit's folder is that of its words", settings["StateDirectory"], ["kubelet-replay"])
    expect("the unit has no capability", settings["CapabilityBoundingSet"], [""])


def manifest(name):
    """The parts of a manifest by their kinds, or None where python3-yaml is missing."""
    try:
        import yaml
    except ImportError:
        return None
    return {part["kind"]: part for part in yaml.safe_load_all(read(f"{DEPLOY}/{name}"))}


def test_right_of_events():
    """The right to list events is a role of its own, for the same account."""
    parts = manifest("rights-events.yaml")
    if parts is None:
        return
    expect("the right of events", [parts["ClusterRole"]["rules"], parts["ClusterRoleBinding"]["subjects"]],
           [[{"apiGroups": [""], "resources": ["events"], "verbs": ["list"]},
             {"apiGroups": [""], "resources": ["nodes"], "verbs": ["get"]}],
            manifest("daemonset.yaml")["ClusterRoleBinding"]["subjects"]])
    expect("the right of events is no other's", "events" in read(f"{DEPLOY}/daemonset.yaml"), False)


def test_rights():
    """Of the kubelet the recorder may get four things, none of which starts a command; where a kubelet does not know
    these rights another role of that name has what it asks for in their place."""
    parts, before = manifest("daemonset.yaml"), manifest("rights-before-1.33.yaml")
    if parts is None:
        return
    [rule], [old] = parts["ClusterRole"]["rules"], before["ClusterRole"]["rules"]
    expect("the role", (rule["verbs"], rule["resources"]),
           (["get"], ["nodes/pods", "nodes/configz", "nodes/metrics", "nodes/stats"]))
    expect("the role before 1.33", (old["verbs"], old["resources"]),
           (["get"], ["nodes/proxy", "nodes/metrics", "nodes/stats"]))
    expect("the role before 1.33 takes the place of the other", before["ClusterRole"]["metadata"],
           parts["ClusterRole"]["metadata"])
    expect("the role before 1.33 brings nothing else", list(before), ["ClusterRole"])


def test_reader():
    """Who reads has no right at the recorders' pods: the readers' are of a namespace of their own, run as nobody, have
    no token and no capability, and see the recorder's folder read-only."""
    parts, recorder = manifest("reader.yaml"), manifest("daemonset.yaml")
    if parts is None:
        return
    spec = parts["DaemonSet"]["spec"]["template"]["spec"]
    [container] = spec["containers"]
    expect("the reader's kinds", list(parts), ["Namespace", "Role", "DaemonSet"])
    expect("the reader's rights", parts["Role"]["rules"], [
        {"apiGroups": [""], "resources": ["pods"], "verbs": ["get", "list"]},
        {"apiGroups": [""], "resources": ["pods/exec"], "verbs": ["create", "get"]}])
    names = {part["metadata"].get("namespace", part["metadata"]["name"]) for part in parts.values()}
    expect("the reader's namespace is none that has a recorder", names, {f"{recorders.NAMESPACE}-{recorders.READER}"})
    expect("the reader's label and container", (
        [f"{name}={value}" for name, value in parts["DaemonSet"]["spec"]["template"]["metadata"]["labels"].items()],
        container["name"]), ([recorders.READER_LABEL], recorders.READER))
    expect("the reader is nobody", (spec["securityContext"]["runAsUser"], spec["securityContext"]["runAsNonRoot"],
                                    spec["automountServiceAccountToken"], spec.get("hostPID"), spec.get("hostNetwork")),
           (65534, True, False, None, None))
    expect("the reader has no privilege", container["securityContext"], {
        "allowPrivilegeEscalation": False, "readOnlyRootFilesystem": True, "capabilities": {"drop": ["ALL"]}})
    of_recorder = recorder["DaemonSet"]["spec"]["template"]["spec"]
    folder = {volume["name"]: volume for volume in of_recorder["volumes"]}["traces"]["hostPath"]["path"]
    expect("the reader sees the traces alone", ([volume["hostPath"]["path"] for volume in spec["volumes"]],
                                                container["volumeMounts"]),
           ([folder], [{"name": "traces", "mountPath": recorders.FOLDER, "readOnly": True}]))
    expect("the reader's image is the recorder's", container["image"], of_recorder["containers"][0]["image"])


def test_nobody_reads_the_traces():
    """What the recorder writes under the entry's umask is read by nobody with the reader's group, by the commands that
    are run in its pod, and by no other user."""
    if os.geteuid() != 0 or shutil.which("setpriv") is None:
        print("left out: what nobody may read, since this is not root, or setpriv is missing")
        return
    folder = tempfile.mkdtemp()
    os.chmod(folder, 0o755)
    name = "n1.2026-01-01T00-00-00Z.trace.gz"
    line = '{"kind":"pod","pod":{"metadata":{"name":"web","namespace":"shop"},"spec":{}}}\n'
    writes = ("#!/bin/sh\npython3 -c 'import sys\nfrom replay_tools import safe_folder as s\nimport gzip, os\n"
              f"os.fdopen(s.made(os.open(sys.argv[1], os.O_RDONLY), \"{name}\"), \"wb\").write(gzip.compress("
              f"sys.argv[2].encode()))' \"$TRACES\" '{line}'\n")
    with open(f"{folder}/kubelet-replay", "w", encoding="utf-8") as file:
        file.write(writes)
    os.chmod(f"{folder}/kubelet-replay", 0o755)
    done = run([f"{DEPLOY}/entry"], KUBELET="none", PYTHONPATH=TOOLS, **entry_in(folder))
    expect("the entry records", (done[0], oct(os.stat(f"{folder}/{name}").st_mode & 0o777)), (0, "0o640"))
    as_nobody = ["setpriv", "--reuid=65534", "--regid=65534"]
    find = ["find", folder, "-name", "*.trace.*", "-exec", "zgrep", "-a", "-o", "-E", "-e",
            recorders.METADATA.format(name="web"), "{}", ";"]
    found = run([*as_nobody, "--groups=0", *find])
    expect("the reader finds a name", (found[0], recorders.key_of(found[1].strip().encode())), (0, "shop/web"))
    expect("the reader reads a trace", run([*as_nobody, "--groups=0", "cat", f"{folder}/{name}"])[0], 0)
    expect("no other user does", run([*as_nobody, "--clear-groups", "cat", f"{folder}/{name}"])[0] != 0, True)
    expect("the reader writes none", run([*as_nobody, "--groups=0", "touch", f"{folder}/x"])[0] != 0, True)
    shutil.rmtree(folder)


def test_daemonset():
    """Its words are words of the recorder, its image is named by what it has, and it checks the kubelet."""
    parts = manifest("daemonset.yaml")
    if parts is None:
        return
    spec = parts["DaemonSet"]["spec"]["template"]["spec"]
    [container] = spec["containers"]
    expect("the image", re.fullmatch("registry.example/kubelet-replay@sha256:[0-9a-f]{64}", container["image"])
           is not None, True)
    expect("the image that was loaded", f" kubelet-replay:{read(f'{TOP}/VERSION').strip()}\n" in
           read(f"{DEPLOY}/daemonset.yaml"), True)
    [checked] = [each["value"] for each in container["env"] if each["name"] == "CERTIFICATE"]
    expect("the kubelet is checked", checked, "/var/run/secrets/kubernetes.io/serviceaccount/ca.crt")
    with tempfile.TemporaryDirectory() as folder:
        found = words_of(["--node", "n1", "--into", folder, *container["args"]])
    expect("the pod's words", (found.into.each, found.crictl[0]), (3600, "crictl"))
    mounted = {mount["name"] for mount in container["volumeMounts"]}
    expect("its volumes are mounted", mounted, {volume["name"] for volume in spec["volumes"]})
    expect("every node is tolerated", spec["tolerations"], [{"operator": "Exists"}])
    rights = container["securityContext"]
    expect("no privilege", (rights["capabilities"], rights.get("privileged"), spec.get("hostPID"),
                            spec.get("hostNetwork")), ({"drop": ["ALL"]}, None, None, None))


def entry_in(folder, **settings):
    """What the entry is started with in a folder, which is its service account's too."""
    with open(f"{folder}/token", "w", encoding="utf-8") as file:
        file.write("of-the-test")
    return {"PATH": f"{folder}:{os.environ['PATH']}", "ACCOUNT": folder, "RUN": f"{folder}/run", "NODE": "worker-3",
            "ADDRESS": "127.0.0.1", "TRACES": folder, **settings}


def test_entry():
    """The entry writes the file that the recorder reads, and starts the recorder with its words and those given."""
    folder = tempfile.mkdtemp()
    with open(f"{folder}/kubelet-replay", "w", encoding="utf-8") as file:
        file.write(SHOWS)
    os.chmod(f"{folder}/kubelet-replay", 0o755)
    curl = f"{folder}/run/kubelet.curl"
    for name, settings, url, wanted in (
        ("as it is", {}, "https://192.0.2.1:10250", [f'cacert = "{folder}/ca.crt"']),
        ("with a file", {"CERTIFICATE": "/etc/kubelet.crt", "HOST": "n1"}, "https://n1:10250",
         ['cacert = "/etc/kubelet.crt"', 'resolve = "n1:10250:192.0.2.1"']),
        ("with another port", {"ADDRESS": "2001:db8::1", "CERTIFICATE": "insecure", "PORT": "10350"},
         "https://[2001:db8::1]:10350", ["insecure"]),
    ):
        settings = entry_in(folder, SHOWN=curl, **{"ADDRESS": "192.0.2.1", **settings})
        process = subprocess.Popen([f"{DEPLOY}/entry", "--look", "5"], env={**os.environ, **settings}, text=True,
                                   stdout=subprocess.PIPE, stderr=subprocess.DEVNULL, start_new_session=True)
        lines = [process.stdout.readline().rstrip("\n") for _ in range(12 + len(wanted))]
        # what writes the token again is its child
        os.killpg(process.pid, 15)
        process.communicate()
        expect(f"the entry {name}", lines, [
            "record", "--node", "worker-3", "--kubelet", url, "--curl", curl, "--into", folder, "--look", "5",
            'header = "Authorization: Bearer of-the-test"', *wanted])
        expect(f"the entry {name}: its file is its owner's", os.stat(curl).st_mode & 0o777, 0o600)
    os.unlink(f"{folder}/token")
    alone = {name: value for name, value in settings.items() if name not in ("ADDRESS", "SHOWN")}
    status, out, said = run([f"{DEPLOY}/entry", "--look", "5"], KUBELET="none", **alone)
    expect("the entry without a kubelet", (status, out.split("\n"), said), (0, [
        "record", "--node", "worker-3", "--kubelet", "none", "--into", folder, "--look", "5", ""], ""))
    status, out, said = run([f"{DEPLOY}/entry"], **settings)
    expect("the entry without a token", (status, out, f"{folder}/token" in said), (1, "", True))
    shutil.rmtree(folder)


def test_entry_writes_through_no_link():
    """A link that somebody put in the place of the recorder's file is replaced, and what it leads to stays as it
    was."""
    with tempfile.TemporaryDirectory() as folder:
        with open(f"{folder}/kubelet-replay", "w", encoding="utf-8") as file:
            file.write("#!/bin/sh\n")
        os.chmod(f"{folder}/kubelet-replay", 0o755)
        settings = entry_in(folder, KUBELET="none")
        traces, other = settings["TRACES"], f"{folder}/other"
        with open(other, "w", encoding="utf-8") as file:
            file.write("somebody's")
        os.symlink(other, f"{traces}/.answered")
        status = run([f"{DEPLOY}/entry"], **settings)[0]
        expect("the entry writes through no link", (status, read(other), os.path.islink(f"{traces}/.answered")),
               (0, "somebody's", False))


def test_entry_gives_no_token_away():
    """Next to a kubelet with a certificate of its own the recorder shows what is to be set, and keeps the token; with
    that certificate, or with the setting to accept any, it records."""
    if not has_openssl():
        return
    place, another = Place("DNS:worker-3"), Place()
    os.symlink(f"{TOOLS}/kubelet-replay", f"{place.folder}/kubelet-replay")
    shutil.copy(f"{another.folder}/crt", f"{place.folder}/ca.crt")
    for name, settings, is_given in (("as it is", {}, False),
                                     ("with its certificate", {"CERTIFICATE": f"{place.folder}/crt",
                                                               "HOST": "worker-3"}, True),
                                     ("told to take any", {"CERTIFICATE": "insecure"}, True)):
        kubelet, traces = Kubelet(place.folder), tempfile.mkdtemp()
        kubelet.tokens = {"Bearer of-the-test"}
        settings = {**place.settings, **entry_in(place.folder), "TRACES": traces, "PORT": str(kubelet.port), **settings}
        settings["PATH"] = f"{place.folder}:{place.settings['PATH']}"
        process = subprocess.Popen([f"{DEPLOY}/entry", "--for", "1"], env={**os.environ, **settings}, text=True,
                                   stdout=subprocess.DEVNULL, stderr=subprocess.PIPE, start_new_session=True)
        status = process.wait(LONGEST)
        # what writes the token again is left where the entry ends
        with contextlib.suppress(ProcessLookupError):
            os.killpg(process.pid, 15)
        said = process.communicate()[1]
        made = [name for name in os.listdir(traces) if name.endswith(".trace.gz")]
        expect(f"the entry {name}", (status, kubelet.came != [], made != []), (int(not is_given), is_given, is_given))
        expect(f"the entry {name}: what is said", (said.count("\n"), "CERTIFICATE of the DaemonSet" in said),
               (0, False) if is_given else (1, True))
        kubelet.end()
        shutil.rmtree(traces)
    place.remove()
    another.remove()


# a client of a socket, which prints for each line that it gets whether a server answers
CLIENT = """
import socket, sys
for _ in sys.stdin:
    with socket.socket(socket.AF_UNIX) as asked:
        print(asked.connect_ex(sys.argv[1]), flush=True)
"""


def bound(path):
    """A server of a socket, as a runtime that is started again binds it: whatever was there is taken away."""
    with contextlib.suppress(FileNotFoundError):
        os.unlink(path)
    server = socket.socket(socket.AF_UNIX)
    server.bind(path)
    server.listen()
    return server


def test_a_runtime_that_is_started_anew():
    """What the pod mounts of the runtime leads to its socket also once the runtime has bound it again."""
    parts, tried = manifest("daemonset.yaml"), ["unshare", "-m", "mount", "-o", "bind", DEPLOY, DEPLOY]
    if parts is None or shutil.which("unshare") is None or run(tried)[0] != 0:
        print("left out: a runtime that is started anew, since nothing may be mounted or python3-yaml is missing")
        return
    spec = parts["DaemonSet"]["spec"]["template"]["spec"]
    [container] = spec["containers"]
    [source] = [volume["hostPath"]["path"] for volume in spec["volumes"] if volume["name"] == "runtime"]
    [mount] = [mount for mount in container["volumeMounts"] if mount["name"] == "runtime"]
    socket_path = container["args"][-1].rpartition("unix://")[2]
    folder = tempfile.mkdtemp()
    node, pod = f"{folder}/node", f"{folder}/pod"
    os.makedirs(os.path.dirname(f"{node}{socket_path}"))
    server = bound(f"{node}{socket_path}")
    os.makedirs(os.path.dirname(f"{pod}{mount['mountPath']}"))
    if os.path.isdir(f"{node}{source}"):
        os.mkdir(f"{pod}{mount['mountPath']}")
    else:
        open(f"{pod}{mount['mountPath']}", "w", encoding="utf-8").close()
    options = "bind,ro" if mount.get("readOnly") else "bind"
    mounts = 'mount -o "$1" "$2" "$3" && exec "$4" -c "$5" "$6"'
    client = subprocess.Popen(["unshare", "-m", "sh", "-c", mounts, "sh", options, f"{node}{source}",
                               f"{pod}{mount['mountPath']}", sys.executable, CLIENT, f"{pod}{socket_path}"],
                              stdin=subprocess.PIPE, stdout=subprocess.PIPE, text=True)
    answers = []
    for _ in range(3):
        client.stdin.write("\n")
        client.stdin.flush()
        answers.append(client.stdout.readline())
        server.close()
        server = bound(f"{node}{socket_path}")
    client.stdin.close()
    client.stdout.close()
    expect("a runtime that is started anew answers the pod", (answers, client.wait(LONGEST)), (["0\n"] * 3, 0))
    server.close()
    shutil.rmtree(folder)


def probed(container, folder):
    """Whether the pod's probe is content with a folder of traces."""
    command = container["livenessProbe"]["exec"]["command"]
    return run([word.replace("/var/lib/kubelet-replay", folder) for word in command])[0] == 0


def test_probe():
    """The pod is started again once the runtime or the kubelet has given no answer for long."""
    parts = manifest("daemonset.yaml")
    recorder = Recorder("crash_loop")
    folder = f"{recorder.run}/traces"
    os.mkdir(folder)
    words = [f"{TOOLS}/record", "--node", "worker-3", "--into", folder, "--for", "3"]
    status, _, said = run(words, **recorder.settings)
    expect("no probe: nothing is touched", (status, said, os.path.exists(f"{folder}/.answered")), (0, "", False))
    for name, is_silent in (("that answers", False), ("that is silent", True)):
        open(f"{folder}/.answered", "w", encoding="utf-8").close()
        os.utime(f"{folder}/.answered", (1e9, 1e9))
        settings = recorder.settings
        if is_silent:
            # from its second list on the runtime gives none
            with open(f"{recorder.run}/crictl", "w", encoding="utf-8") as file:
                file.write(f'#!/bin/sh\n[ "$1" != ps ] || [ ! -e "{recorder.run}/was" ] || exit 1\n'
                           f'true >"{recorder.run}/was"\nexec "{HERE}/commands/crictl" "$@"\n')
            os.chmod(f"{recorder.run}/crictl", 0o755)
            settings = {**settings, "PATH": f"{recorder.run}:{settings['PATH']}"}
        status = run(words, **settings)[0]
        expect(f"a runtime {name} is seen", (status, os.path.getmtime(f"{folder}/.answered") > 1e9),
               (0, not is_silent))
        if parts is not None:
            [container] = parts["DaemonSet"]["spec"]["template"]["spec"]["containers"]
            expect(f"the probe of a runtime {name}", probed(container, folder), not is_silent)
    recorder.clean()


def test_what_is_silent_for_long():
    """A line reports a source that gives no answer, and another one after five minutes of that, and one that it answers
    again."""
    told, answers = [], {1000: "yes", 1700: "yes"}

    def ask(moment):
        if moment not in answers:
            raise Failed("crictl ps failed")
        return answers[moment]

    observer = Observer(Sources("n1"), 10, lambda text, subject=None: told.append(text))
    got = [observer.attempt(RUNTIME, moment, lambda: ask(moment))
           for moment in (1000, 1001, 1100, 1300, 1301, 1302, 1601, 1602, 1700, 1701)]
    wait = "; ticks wait for it up to 30 s, and then list containers as unknown"
    expect("what is silent for long", told, [
        f"1001: crictl ps failed{wait}", f"1301: crictl ps failed, for 300 s now{wait}",
        f"1601: crictl ps failed, for 600 s now{wait}", "1700: crictl ps answers again, after 699 s",
        f"1701: crictl ps failed{wait}"])
    expect("what is silent for long: the answers", [answer for answer in got if answer], ["yes", "yes"])


# what deploy/image starts: a root of one device, and an image of one tag
MMDEBSTRAP = """#!/bin/sh
for word; do case $word in */root.tar) tar -C / -cf "$word" ./dev/null ;; esac; done
"""
UMOCI = """#!/bin/sh
echo "$*" >>"${0%/*}/asked"
[ "$1" != init ] || {
    mkdir "$3" && echo '{"manifests":[{"mediaType":"m","digest":"DIGEST","size":2,"annotations":
        {"org.opencontainers.image.ref.name":"1.2.3"}}]}' >"$3/index.json"
}
"""
DIGEST = f"sha256:{'0123456789abcdef' * 4}"
CONTROL = "Package: kubelet-replay\nVersion: 1.2.3\nArchitecture: amd64\nMaintainer: n <n@n>\nDescription: d\n"


def test_image_name():
    """The runtime names the image as the manifest does, also where only a tag names it; its digest is printed, and its
    date is the package's."""
    if shutil.which("dpkg-deb") is None:
        return
    folder = tempfile.mkdtemp()
    os.makedirs(f"{folder}/package/DEBIAN")
    for path, text in (("package/DEBIAN/control", CONTROL), ("mmdebstrap", MMDEBSTRAP), ("umoci", UMOCI.replace("DIGEST", DIGEST))):
        with open(f"{folder}/{path}", "w", encoding="utf-8") as file:
            file.write(text)
        os.chmod(f"{folder}/{path}", 0o755)
    run(["dpkg-deb", "--build", f"{folder}/package", f"{folder}/made.deb"], SOURCE_DATE_EPOCH="1000000000")
    made = run([f"{DEPLOY}/image", f"{folder}/made.deb", f"{folder}/made.tar"], PATH=f"{folder}:{os.environ['PATH']}")
    expect("an image", made, (0, f"{os.path.realpath(folder)}/made.tar\nkubelet-replay@{DIGEST}\n", ""))
    with tarfile.open(f"{folder}/made.tar") as archive:
        [listed] = json.load(archive.extractfile("./index.json"))["manifests"]
        expect("the moments in an image", {each.mtime for each in archive.getmembers()}, {1000000000})
    dates = re.findall("created ([^ \n]+)", read(f"{folder}/asked"))
    expect("the date of an image", (len(dates), set(dates)), (3, {"2001-09-09T01:46:40Z"}))
    expect("the names of the image", listed["annotations"], {
        "org.opencontainers.image.ref.name": "1.2.3",
        "io.containerd.image.name": "docker.io/library/kubelet-replay:1.2.3"})
    shutil.rmtree(folder)


def test_image():
    for name, words, status, said in (
        ("without a package", [], 2, "usage: deploy/image PACKAGE"),
        ("of no package", [f"{DEPLOY}/image.deb"], 2, "there is no package"),
    ):
        expect_refused(f"an image {name}", run([f"{DEPLOY}/image", *words]), status, said)
