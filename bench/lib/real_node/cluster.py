"""The API server that bench/real_node --api runs next to a kubelet, with one user who may just record."""

import json
import os
import secrets
import shutil
import ssl
import subprocess
import urllib.error
import urllib.request

from kit import call, read, write
from machine import wait_until

# an address of the machine's own, since a kubelet takes none of the loopback's for its node
ADDRESS = "10.99.0.1"
KUBELET = f"https://{ADDRESS}:10250"
API = "https://127.0.0.1:16443"
ETCD, ETCD_PEERS = "http://127.0.0.1:12379", "http://127.0.0.1:12380"
NAMESPACE = "shop"
ADMIN, RECORDER = "admin", "recorder"
# the least that the recorder needs of kubectl
ROLE = [{"apiGroups": [""], "resources": ["nodes/proxy"], "verbs": ["get"]},
        {"apiGroups": [""], "resources": ["pods"], "verbs": ["list"]}]
ACCESS = "rbac.authorization.k8s.io"
# without a controller manager no account has a secret with a token, so pods have tokens that the kubelet asks for
WITHOUT_ACCOUNTS = ["--disable-admission-plugins=ServiceAccount"]
WITH_ACCOUNTS = ["--feature-gates=BoundServiceAccountTokenVolume=true"]


class Cluster:
    """etcd and an API server, whose folder keeps their certificates and what each user needs. With accounts pods have
    tokens of their own, and the kubelet asks the API server who may do what with it."""

    def __init__(self, machine, has_accounts=False):
        self.machine = machine
        self.has_accounts = has_accounts
        self.folder = f"{machine.folder}/api"
        self.tokens = {user: secrets.token_hex(16) for user in (ADMIN, RECORDER)}
        self.has_address = False

    def start(self):
        shutil.rmtree(self.folder, ignore_errors=True)
        os.makedirs(self.folder, mode=0o700)
        call(["ip", "address", "add", f"{ADDRESS}/32", "dev", "lo"])
        self.has_address = True
        self.machine.start("etcd", ["etcd", "--data-dir", f"{self.folder}/etcd", "--listen-client-urls", ETCD,
                                    "--advertise-client-urls", ETCD, "--listen-peer-urls", ETCD_PEERS,
                                    "--unsafe-no-fsync"])
        call(["openssl", "genrsa", "-out", f"{self.folder}/accounts.key", "2048"], stderr=subprocess.DEVNULL)
        write(f"{self.folder}/tokens", f'{self.tokens[ADMIN]},{ADMIN},{ADMIN},"system:masters"\n'
                                       f"{self.tokens[RECORDER]},{RECORDER},{RECORDER}\n")
        self.machine.start("kube-apiserver", ["kube-apiserver", *self.words()])
        for user in self.tokens:
            write(self.settings_of(user), json.dumps(self.settings_text(user)))
        wait_until("the API server", self.is_ready, 120)
        self.fill()

    def words(self):
        key = f"{self.folder}/accounts.key"
        return [f"--etcd-servers={ETCD}", "--bind-address=127.0.0.1", "--secure-port=16443",
                f"--cert-dir={self.folder}/certificates", f"--service-account-issuer={API}",
                f"--service-account-key-file={key}", f"--service-account-signing-key-file={key}",
                "--authorization-mode=RBAC", f"--token-auth-file={self.folder}/tokens",
                *(WITH_ACCOUNTS if self.has_accounts else WITHOUT_ACCOUNTS), "--service-cluster-ip-range=10.98.0.0/24",
                "--kubelet-preferred-address-types=InternalIP", f"--advertise-address={ADDRESS}",
                "--endpoint-reconciler-type=none"]

    def settings_of(self, user):
        return f"{self.folder}/{user}.kubeconfig"

    def settings_text(self, user):
        cluster = {"server": API, "certificate-authority": f"{self.folder}/certificates/apiserver.crt"}
        return {"apiVersion": "v1", "kind": "Config", "current-context": user,
                "contexts": [{"name": user, "context": {"cluster": "api", "user": user}}],
                "clusters": [{"name": "api", "cluster": cluster}],
                "users": [{"name": user, "user": {"token": self.tokens[user]}}]}

    def fill(self):
        """The namespace, a class of pods that are important, and what the user may who records."""
        self.ask("/api/v1/namespaces", {"apiVersion": "v1", "kind": "Namespace", "metadata": {"name": NAMESPACE}})
        self.ask("/apis/scheduling.k8s.io/v1/priorityclasses",
                 {"apiVersion": "scheduling.k8s.io/v1", "kind": "PriorityClass", "metadata": {"name": "high"},
                  "value": 1000})
        self.ask(f"/apis/{ACCESS}/v1/clusterroles", {"apiVersion": f"{ACCESS}/v1", "kind": "ClusterRole",
                                                      "metadata": {"name": RECORDER}, "rules": ROLE})
        self.bind(RECORDER, RECORDER)
        if self.has_accounts:
            # the bench itself, and the API server where it goes to the kubelet, have no name there
            self.bind("system:anonymous", "system:kubelet-api-admin")
            self.make_account(NAMESPACE)

    def bind(self, user, role):
        self.ask(f"/apis/{ACCESS}/v1/clusterrolebindings",
                 {"apiVersion": f"{ACCESS}/v1", "kind": "ClusterRoleBinding", "metadata": {"name": user},
                  "roleRef": {"apiGroup": ACCESS, "kind": "ClusterRole", "name": role},
                  "subjects": [{"kind": "User", "name": user, "apiGroup": ACCESS}]})

    def make_account(self, namespace):
        """What the controller manager would make in a namespace."""
        self.ask(f"/api/v1/namespaces/{namespace}/serviceaccounts",
                 {"apiVersion": "v1", "kind": "ServiceAccount", "metadata": {"name": "default"}})
        self.ask(f"/api/v1/namespaces/{namespace}/configmaps",
                 {"apiVersion": "v1", "kind": "ConfigMap", "metadata": {"name": "kube-root-ca.crt"},
                  "data": {"ca.crt": read(f"{self.folder}/certificates/apiserver.crt")}})

    def end(self):
        if self.has_address:
            subprocess.run(["ip", "address", "del", f"{ADDRESS}/32", "dev", "lo"], check=False)

    # --- what is asked ---

    def ask(self, path, body=None, method=None):
        """An answer of the API server's to its administrator; None where what is asked for is not there."""
        trusting = ssl.create_default_context(cafile=f"{self.folder}/certificates/apiserver.crt")
        opener = urllib.request.build_opener(urllib.request.ProxyHandler({}),
                                             urllib.request.HTTPSHandler(context=trusting))
        asked = urllib.request.Request(f"{API}{path}", None if body is None else json.dumps(body).encode(),
                                       {"Authorization": f"Bearer {self.tokens[ADMIN]}",
                                        "Content-Type": "application/json"}, method=method)
        try:
            with opener.open(asked, timeout=10) as answer:
                return answer.read()
        except urllib.error.HTTPError as error:
            if error.code == 404:
                return None
            raise

    def is_ready(self):
        try:
            return self.ask("/readyz") is not None
        except OSError:
            return False

    def pod_path(self, pod):
        return f"/api/v1/namespaces/{NAMESPACE}/pods/{pod['metadata']['name']}"

    def create(self, pod):
        self.ask(f"/api/v1/namespaces/{NAMESPACE}/pods", pod)

    def delete(self, pod, grace=None):
        self.ask(self.pod_path(pod), {} if grace is None else {"gracePeriodSeconds": grace}, "DELETE")

    def is_there(self, pod):
        return self.ask(self.pod_path(pod)) is not None


class Changes:
    """What is done to pods over time: they are created, deleted, or made again under their names once they are gone, as
    a StatefulSet does."""

    def __init__(self, cluster, changes):
        self.cluster = cluster
        self.left = sorted(changes, key=lambda change: change[0])
        self.going = []

    def act(self, passed):
        while self.left and self.left[0][0] <= passed:
            _, what, pod, grace = self.left.pop(0)
            if what == "create":
                self.cluster.create(pod)
            else:
                self.cluster.delete(pod, grace)
                self.going += [pod] if what == "again" else []
        for pod in [each for each in self.going if not self.cluster.is_there(each)]:
            self.going.remove(pod)
            self.cluster.create(pod)
