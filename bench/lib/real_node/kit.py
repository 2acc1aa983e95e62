"""What a run builds below its folder: a kubelet of Debian's sources, its runtime and images, and an API server."""

import hashlib
import io
import json
import os
import shutil
import subprocess
import tarfile

PARTS = os.path.dirname(os.path.realpath(__file__))
PACKAGES = ["containerd", "runc", "golang-1.19-go", "golang-1.19-src", "busybox-static"]
API_PACKAGES = ["etcd-server", "kubernetes-client", "containernetworking-plugins"]
# where the packages have what gives pods a network
PLUGINS = "usr/lib/cni"
MIRROR = "http://deb.debian.org/debian bookworm main"
VERSION = "k8s.io/component-base/version"
FLAGS = f"-X {VERSION}.gitVersion=v1.20.2 -X {VERSION}.gitMajor=1 -X {VERSION}.gitMinor=20"
# what describes the API's types to the API server; Debian's sources have it no more than upstream's
OPENAPI = "pkg/generated/openapi"
OPENAPI_TAG = b"+k8s:openapi-gen="
OPENAPI_FILE = "zz_generated.openapi"


def call(words, **settings):
    subprocess.run(words, check=True, **settings)


def write(path, text):
    with open(path, "w", encoding="utf-8") as file:
        file.write(text)


def read(path):
    with open(path, encoding="utf-8") as file:
        return file.read()


class Kit:
    """Kubelet, runtime and images below a folder, and where pods come by it an API server."""

    def __init__(self, folder, has_api=False):
        self.folder = folder
        self.has_api = has_api
        self.go = f"{folder}/gopath/src/k8s.io/kubernetes"
        root = f"{folder}/root/usr"
        self.settings = {**os.environ, "GOROOT": f"{root}/lib/go-1.19", "GOPATH": f"{folder}/gopath",
                         "GOCACHE": f"{folder}/gocache", "GO111MODULE": "off", "GOFLAGS": "", "CGO_ENABLED": "0",
                         "NO_PROXY": "*", "no_proxy": "*",
                         "PATH": f"{folder}/bin:{root}/lib/go-1.19/bin:{root}/bin:{root}/sbin:{os.environ['PATH']}"}

    def apt(self, *words):
        options = {"Dir::Etc::SourceList": f"{self.folder}/sources.list", "Dir::Etc::SourceParts": "/dev/null",
                   "Dir::State::Lists": f"{self.folder}/lists", "Dir::Cache": f"{self.folder}/cache",
                   "APT::Sandbox::User": "root"}
        call(["apt-get", *(word for name, value in options.items() for word in ("-o", f"{name}={value}")), *words],
             cwd=self.folder)

    def fetch(self):
        """Takes sources and packages from Debian's mirror, by an apt of its own that leaves the machine's as it is."""
        for name in ("lists/partial", "cache/archives/partial", "bin", "root", "gopath/src/k8s.io"):
            os.makedirs(f"{self.folder}/{name}", exist_ok=True)
        write(f"{self.folder}/sources.list", f"deb {MIRROR}\ndeb-src {MIRROR}\n")
        self.apt("update")
        self.apt("download", *PACKAGES, *(API_PACKAGES if self.has_api else []))
        if not os.path.exists(self.go):
            self.apt("source", "--download-only", "kubernetes")
        for name in sorted(os.listdir(self.folder)):
            if name.endswith(".deb"):
                call(["dpkg", "-x", name, "root"], cwd=self.folder)
            elif name.endswith(".dsc") and not os.path.exists(self.go):
                call(["dpkg-source", "--no-check", "-x", name, self.go], cwd=self.folder)

    def build(self):
        programs = ["kubelet", *(["kube-apiserver"] if self.has_api else [])]
        missing = [name for name in programs if not os.path.exists(f"{self.folder}/bin/{name}")]
        if missing or (self.has_api and not os.path.isdir(f"{self.folder}/root/{PLUGINS}")):
            self.fetch()
        for name in missing:
            if name == "kube-apiserver":
                self.describe_types()
            self.go_build(name, f"./cmd/{name}", "-ldflags", FLAGS)
        os.makedirs(f"{self.go}/cmd/crictl", exist_ok=True)
        shutil.copy(f"{PARTS}/crictl.go", f"{self.go}/cmd/crictl/main.go")
        self.go_build("crictl", "./cmd/crictl")

    def go_build(self, name, package, *words):
        call(["go", "build", *words, "-o", f"{self.folder}/bin/{name}", package], cwd=self.go, env=self.settings)

    def describe_types(self):
        """Generates the description of the API's types, without which the API server does not start."""
        self.go_build("openapi-gen", "./vendor/k8s.io/kube-openapi/cmd/openapi-gen")
        write(f"{self.folder}/no-header", "")
        call(["openapi-gen", "--logtostderr", "-i", ",".join(self.described_packages()),
              "-p", f"k8s.io/kubernetes/{OPENAPI}", "-O", OPENAPI_FILE, "-h", f"{self.folder}/no-header",
              "-r", f"{self.folder}/violations", "--output-base", f"{self.folder}/described"],
             cwd=self.go, env=self.settings)
        text = read(f"{self.folder}/described/k8s.io/kubernetes/{OPENAPI}/{OPENAPI_FILE}.go")
        write(f"{self.go}/{OPENAPI}/{OPENAPI_FILE}.go", text.replace("k8s.io/kubernetes/vendor/k8s.io/", "k8s.io/"))

    def described_packages(self):
        """The packages whose types the API server describes: those with a tag that asks for it."""
        for part, name in (("pkg", "pkg"), ("staging/src/k8s.io", "vendor/k8s.io")):
            for folder, folders, files in os.walk(f"{self.go}/{part}"):
                folders[:] = sorted(set(folders) - {"code-generator", "sample-apiserver", "kube-openapi", "testdata"})
                if any(has_tag(f"{folder}/{file}") for file in files if file.endswith(".go")):
                    yield f"k8s.io/kubernetes/{name}{folder[len(f'{self.go}/{part}'):]}"

    def image(self, name, command):
        """An image of one layer, busybox with its commands, as `ctr images import` reads it."""
        layer = self.layer()
        identity = hashlib.sha256(layer).hexdigest()
        settings = json.dumps({"architecture": "amd64", "os": "linux", "config": {"Cmd": command, "Env": ["PATH=/bin"]},
                               "rootfs": {"type": "layers", "diff_ids": [f"sha256:{identity}"]}}).encode()
        named = f"{hashlib.sha256(settings).hexdigest()}.json"
        listed = json.dumps([{"Config": named, "RepoTags": [name], "Layers": ["layer/layer.tar"]}]).encode()
        path = f"{self.folder}/{name.split('/')[1].split(':')[0]}.tar"
        with tarfile.open(path, "w") as archive:
            for part, content in ((named, settings), ("layer/layer.tar", layer), ("manifest.json", listed)):
                archive.addfile(sized(part, content), io.BytesIO(content))
        return path

    def layer(self):
        """The layer of the images: the same bytes whenever it is made, so that their names stay."""
        busybox = f"{self.folder}/root/bin/busybox"
        applets = subprocess.run([busybox, "--list"], check=True, capture_output=True, text=True).stdout.split()
        packed = io.BytesIO()
        with tarfile.open(fileobj=packed, mode="w") as archive:
            for name in ("bin", "tmp", "proc", "sys", "dev", "etc"):
                folder = tarfile.TarInfo(name)
                folder.type, folder.mode = tarfile.DIRTYPE, 0o777
                archive.addfile(folder)
            archive.add(busybox, "bin/busybox", filter=without_times)
            for applet in applets:
                link = tarfile.TarInfo(f"bin/{applet}")
                link.type, link.linkname = tarfile.SYMTYPE, "busybox"
                if applet != "busybox":
                    archive.addfile(link)
        return packed.getvalue()


def has_tag(path):
    with open(path, "rb") as file:
        return OPENAPI_TAG in file.read()


def without_times(info):
    info.mtime = 0
    return info


def sized(name, content):
    info = tarfile.TarInfo(name)
    info.size = len(content)
    return info
