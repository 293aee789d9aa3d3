#!/usr/bin/env python3
"""Tests the files for Kubernetes in operate/kubernetes, as far as this is possible without a cluster.

    tests/kubernetes.py TOTXEGUN

They are parsed, and what they name must exist: labels, volumes, ports, the Secret's files. kubectl, which asks no server for this,
must know each field and read each value as one of its type; it leaves nothing out of the StatefulSet and the Service. Their settings
must start a service, with its folders in another place, which listens on each port of the pod, and answers 200 to each probe. Without
PyYAML or openssl everything is left out, with status 77, and without kubectl what it would check.

Each line is a check; the last line counts passes and failures. The status is 0 if none failed.
"""
import copy
import json
import os
import re
import subprocess
import sys
import tempfile
from typing import Any

from testing import ROOT
from testing.checks import Checks
from testing.loopback import free_port
from testing.service import ask, wait_until
from testing.shipped import missing
from tooling.files import text_of, write

FILE = f"{ROOT}/operate/kubernetes/totxegun.yaml"
PROBES = ("startupProbe", "readinessProbe", "livenessProbe")
# Debian's kubectl, 1.20, knows it by this version alone, with the same fields.
KNOWN_AS = {"policy/v1": "policy/v1beta1"}
# What has kubectl write an object again that it has read by its types: without what these don't have.
WRITTEN_BY = {"StatefulSet": ["set", "env", "ANY=value"], "Service": ["set", "selector", "app=totxegun"]}


def documents() -> dict[str, Any]:
    """The documents by kind; there is one of each."""
    import yaml
    found = [it for it in yaml.safe_load_all(text_of(FILE)) if it]
    kinds = {it["kind"]: it for it in found}
    if len(kinds) != len(found):
        raise OSError("a kind is there twice")
    return kinds


def look_at_names(checks: Checks, kinds: dict[str, Any]) -> None:
    wanted = {"ConfigMap", "StatefulSet", "Service", "PodDisruptionBudget", "NetworkPolicy"}
    checks.same("each is there once", wanted, set(kinds))
    of_set = kinds["StatefulSet"]["spec"]
    labels = of_set["template"]["metadata"]["labels"]
    selectors = [of_set["selector"]["matchLabels"], kinds["Service"]["spec"]["selector"],
                 kinds["PodDisruptionBudget"]["spec"]["selector"]["matchLabels"],
                 kinds["NetworkPolicy"]["spec"]["podSelector"]["matchLabels"]]
    checks.same("all are about the same pod", [labels] * 4, selectors)
    checks.same("the set is under its service", kinds["Service"]["metadata"]["name"], of_set["serviceName"])
    pod = of_set["template"]["spec"]
    (container,) = pod["containers"]
    ports = {it["name"] for it in container["ports"]}
    named = {it["targetPort"] for it in kinds["Service"]["spec"]["ports"]}
    named |= {it["port"] for rule in kinds["NetworkPolicy"]["spec"]["ingress"] for it in rule["ports"]}
    named |= {container[probe]["httpGet"]["port"] for probe in PROBES}
    checks.same("each port that is named is the pod's", ports, named)
    volumes = {it["name"] for it in pod["volumes"]} | {it["metadata"]["name"] for it in of_set["volumeClaimTemplates"]}
    checks.same("each mount has its volume", volumes, {it["name"] for it in container["volumeMounts"]})
    checks.same("the image is of this version", f"totxegun:{text_of(f'{ROOT}/VERSION').strip()}", container["image"])
    of_map = next(it for it in pod["volumes"] if "configMap" in it)["configMap"]["name"]
    checks.same("the settings are mounted", kinds["ConfigMap"]["metadata"]["name"], of_map)


def kubectl(*words: str, given: Any) -> tuple[int, str]:
    """Its status, and what it printed. It asks no server."""
    done = subprocess.run(["kubectl", *words, "--local", "-f", "-", "-o", "json"], input=json.dumps(given), capture_output=True,
                          text=True, check=False, env={**os.environ, "KUBECONFIG": "/dev/null"})
    return done.returncode, done.stdout or done.stderr


def knows_fields(it: Any) -> tuple[int, str]:
    """Patched by itself, each list and object in it has to be a field of its kind."""
    return kubectl("patch", "--type=strategic", "-p", json.dumps(it), given=it)


def left_out(wanted: Any, found: Any, place: str = "") -> list[str]:
    """The places in an object that another one does not have."""
    if isinstance(wanted, dict):
        return [it for key, value in wanted.items() for it in left_out(value, (found or {}).get(key), f"{place}.{key}")]
    if isinstance(wanted, list):
        pairs = zip(wanted, [*(found or []), *[None] * len(wanted)])
        return [it for number, pair in enumerate(pairs) for it in left_out(*pair, f"{place}[{number}]")]
    return [] if found is not None else [place]


def look_at_fields(checks: Checks, kinds: dict[str, Any]) -> None:
    for kind, document in kinds.items():
        it: dict[str, Any] = {**document, "apiVersion": KNOWN_AS.get(document["apiVersion"], document["apiVersion"])}
        status, said = knows_fields(it)
        checks.true(f"kubectl knows each field of {kind}", status == 0, said)
        odd = copy.deepcopy(it)
        odd.get("spec", odd)["fieldThatIsNot"] = {}
        checks.true(f"it finds one in {kind} that is not there", knows_fields(odd)[0] != 0, "taken")
        # An object without a pod's template is read first, and refused for that alone.
        status, said = kubectl("set", "env", "ANY=value", given=it)
        checks.true(f"it reads each value of {kind}", status == 0 or "not a pod or does not have a pod template" in said, said)
    for kind, words in WRITTEN_BY.items():
        status, said = kubectl(*words, given=kinds[kind])
        checks.same(f"it leaves nothing out of {kind}", (0, []), (status, status or left_out(kinds[kind], json.loads(said))))


def secrets() -> list[str]:
    """The files of the Secret, which the head of the file tells the operator to make."""
    return re.findall(r"--from-file=(\S+)", text_of(FILE))


def with_own_places(kinds: dict[str, Any], folder: str) -> tuple[str, dict[str, int]]:
    """The settings with other folders and free ports, and the free port for each of the file's ports."""
    text = kinds["ConfigMap"]["data"]["totxegun.toml"]
    ports = {port: free_port() for port in re.findall(r'"0\.0\.0\.0:(\d+)"', text)}
    for port, free in ports.items():
        text = text.replace(f'"0.0.0.0:{port}"', f'"127.0.0.1:{free}"')
    return text.replace("/etc/totxegun/secret", folder).replace("/var/lib/totxegun", f"{folder}/data"), ports


def look_at_settings(checks: Checks, program: str, kinds: dict[str, Any], folder: str) -> None:
    names = secrets()
    text = kinds["ConfigMap"]["data"]["totxegun.toml"]
    of_secret = re.findall(r'"/etc/totxegun/secret/(\S+)"', text)
    checks.same("the Secret has the files that the settings name", sorted(names), sorted(of_secret))
    (container,) = kinds["StatefulSet"]["spec"]["template"]["spec"]["containers"]
    mounts = {it["mountPath"]: it["name"] for it in container["volumeMounts"]}
    checks.same("they are where it is mounted", "secret", mounts["/etc/totxegun/secret"])
    checks.same("the folder is the volume's", ("data", True), (mounts["/var/lib/totxegun"], 'data = "/var/lib/totxegun"' in text))
    make = ["openssl", "req", "-x509", "-newkey", "ec", "-pkeyopt", "ec_paramgen_curve:prime256v1", "-nodes", "-subj", "/CN=h"]
    subprocess.run([*make, "-keyout", f"{folder}/tls.key", "-out", f"{folder}/tls.crt"], check=True, capture_output=True)
    write(f"{folder}/tokens", subprocess.run([program, "token", "shop"], check=True, capture_output=True, text=True).stdout)
    settings, ports = with_own_places(kinds, folder)
    write(f"{folder}/totxegun.toml", settings)
    own = {str(it["containerPort"]) for it in container["ports"]}
    checks.same("the pod's ports are those of the settings", own, set(ports))
    environment = {it["name"]: it["value"] for it in container["env"]}
    options = subprocess.run([program, "serve", "--help"], capture_output=True, text=True, check=True).stdout
    checks.same("each variable is an option's", [], [name for name in environment if f"[env: {name}" not in options])
    words = [program, *container["args"][:-1], f"{folder}/totxegun.toml"]
    checks.same("it is started by its settings", ["serve", "--config"], container["args"][:-1])
    with open(f"{folder}/log", "wb") as log:
        # The environment sets the port of --listen, as in the image.
        listen = f"127.0.0.1:{ports['4318']}"
        service = subprocess.Popen(words, env={**os.environ, **environment, "TOTXEGUN_LISTEN": listen}, stdout=log, stderr=log)
    try:
        port = {it["name"]: ports[str(it["containerPort"])] for it in container["ports"]}
        for probe in PROBES:
            asked = container[probe]["httpGet"]
            is_answered = wait_until(lambda: ask(port[asked["port"]], "GET", asked["path"], seconds=2)[0] == 200, 30)
            checks.true(f"{probe} is answered 200", is_answered, text_of(f"{folder}/log")[-1500:])
    finally:
        service.terminate()
        checks.same("it ends in time", 0, service.wait(kinds["StatefulSet"]["spec"]["template"]["spec"]["terminationGracePeriodSeconds"]))


def main(program: str) -> int:
    checks = Checks()
    needs = missing(["openssl"])
    try:
        import yaml  # noqa: F401
    except ImportError:
        needs = [*needs, "python3-yaml"]
    if checks.has("the files for Kubernetes", *needs):
        kinds = documents()
        look_at_names(checks, kinds)
        if checks.has("what kubectl says of them", *missing(["kubectl"])):
            look_at_fields(checks, kinds)
        with tempfile.TemporaryDirectory(prefix="kubernetes-") as folder:
            look_at_settings(checks, program, kinds, folder)
    return checks.end()


if __name__ == "__main__":
    if len(sys.argv) != 2:
        sys.exit(f"usage: {sys.argv[0]} TOTXEGUN")
    sys.exit(main(os.path.abspath(sys.argv[1])))
