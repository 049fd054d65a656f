"""Small inputs that are damaged or extreme, and layers for them."""

import hashlib
import json
import os
import tempfile

import layer_seal
import runs

SYSTEM = b'ID=debian\nVERSION_ID="12"\n'
STATUS = "var/lib/dpkg/status"


def digits(word):
    return hashlib.sha256(word.encode()).hexdigest()


def digest(word):
    return "sha256:" + digits(word)


def compact(value):
    return json.dumps(value, separators=(",", ":"))


def manifest(image, *layers):
    """A manifest of these layers, each a word, or a word with the stated seal."""
    return {"hash": digest(image), "layers": [{"hash": digest(layer)} if isinstance(layer, str) else {"hash": digest(layer[0]), "seal": layer[1]} for layer in layers]}


def record(name, ecosystem, package, events, kind="ECOSYSTEM", **more):
    ranges = [{"type": kind, "events": events}]
    return {"id": name, "modified": "2024-01-01T00:00:00Z", "affected": [{"package": {"ecosystem": ecosystem, "name": package}, "ranges": ranges, **more}]}


def paragraph(name, version, more=""):
    return f"Package: {name}\nStatus: install ok installed\nArchitecture: amd64\n{more}Version: {version}\n\n"


# ---- layers: their files, or a file in the place of the folder

LAYERS = {
    "debian": {"etc/os-release": SYSTEM, STATUS: "".join(paragraph(f"lib{number}", f"1.{number}-1", "Source: src (2:1.0~rc1-1)\n" if number % 3 else "") for number in range(20)).encode()},
    "alpine": {
        "etc/os-release": b"ID=alpine\nVERSION_ID=3.18.4\n",
        "lib/apk/db/installed": b"".join(b"P:lib%d\nV:1.%d_rc1-r2\nA:x86_64\no:origin\nT:text\n\n" % (number, number) for number in range(20)),
    },
    "node": {f"app/node_modules/n{number}/package.json": b'{"name":"n%d","version":"1.%d.0-rc.1+build"}' % (number, number) for number in range(12)}
    | {"app/node_modules/@a/b/package.json": b'{"name":"caf\\u00e9\\u0000","version":"1.0.0","name":"@a/b"}', "app/node_modules/c/package.json": b"[" * 1000},
    "python": {f"opt/P_{number}.dist-info/METADATA": b"Metadata-Version: 2.1\r\nNAME:P_.-%d\r\nversion:\t1!1.%d.0rc2.post1 \n\nName: other\n" % (number, number) for number in range(12)}
    | {"opt/q.egg-info/PKG-INFO": b"\xef\xbb\xbfName: q\nVersion: 1\n", "opt/r.dist-info/METADATA": b"Name:\nName: r\nVersion: 1\n"},
    "marks": {"app/node_modules/.wh.n1": b"", "app/node_modules/n2/.wh..wh..opq": b"", "var/lib/.wh.dpkg": b"", "app/.wh..wh.plnk/x": b"", "etc/.wh.os-release": b"", STATUS: paragraph("upper", "1:2.0").encode()},
    "cover": {"app": b"", "var/lib/dpkg": b""},
    "deep": {"d/" * 150 + "node_modules/deep/package.json": b'{"name":"deep","version":"1.0.0"}'},
    "parts": {"var/lib/dpkg/status.d/a": b"Package: a\nVersion: 1\n", "var/lib/dpkg/status.d/a.md5sums": b"no colon\n", "var/lib/dpkg/status.d/b": b"Package: b\nVersion: 2"},
    "marks with bytes": {"var/lib/dpkg/status.d/.wh.a": b"in the seal", "app/.wh..wh.plnk/node_modules/x/package.json": b"in the seal", "etc/.wh.os-release": b"not in the seal"},
    "bad status": {STATUS: b"Package: a\nStatus: install ok installed\nnocolon\n"},
    "bad database": {"lib/apk/db/installed": b"P:a\nV:1\n\nP:b\nP:c\n"},
    "bad mark": {"etc/x": b"", "srv/.wh..": b""},
    "file": None,
}


def layer_files():
    """The files of all layers, by their paths."""
    files = {}
    for word, layer in LAYERS.items():
        folder = f"layers/sha256/{digits(word)}"
        files |= {folder: b""} if layer is None else {f"{folder}/{path}": data for path, data in layer.items()}
    return files


def sealed(word):
    """A layer with its seal."""
    with tempfile.TemporaryDirectory() as folder:
        runs.put_files(folder, LAYERS[word])
        return word, layer_seal.seal_of(os.fsencode(folder))


# ---- records

DEB = record("DEB-1", "Debian:12", "src", [{"introduced": "0"}, {"fixed": "2:1.0-1"}])
DEB_2 = record("DEB-2", "Debian", "lib0", [{"introduced": "1.0"}, {"last_affected": "1.7-1"}, {"limit": "*"}], versions=["1.0-1", "1.0-1"])
APK = record("APK-1", "Alpine:v3.18", "origin", [{"introduced": "0"}, {"fixed": "1.9-r0"}])
NPM = record("NPM-1", "npm", "n3", [{"introduced": "0"}, {"fixed": "no version"}], "SEMVER", versions=["1.3.0-rc.1+build"])
NPM_2 = record("NPM-2", "npm", "@a/b", [{"introduced": "1.0.0", "limit": "2.0.0"}], "SEMVER")
PYPI = record("PY-1", "PyPI", "p-3", [{"introduced": "0"}, {"fixed": "1!2.0"}])
RECORDS = [DEB, DEB_2, APK, NPM, NPM_2, PYPI]
MANY = [record(f"ID-{number * 7919 % 1000}", "Debian:12", f"lib{number % 20}", [{"introduced": "0"}, {"fixed": f"1.{number}"}], aliases=["x"] * number) for number in range(40)]


# ---- the lines of scans

SCANS = {
    "an empty input": [],
    "no JSON": [b"{"],
    "no layers": [compact(manifest("image"))],
    "129 layers": [compact(manifest("image", *["debian"] * 129))],
    "a layer that is absent": [compact(manifest("image", "debian", "absent")), compact(DEB)],
    "a layer that cannot be listed": [compact(manifest("image", "debian", "file"))],
    "a bad mark": [compact(manifest("image", "debian", "bad mark"))],
    "a bad status file": [compact(manifest("image", "bad status"))],
    "a bad apk database": [compact(manifest("image", "bad database"))],
    "each kind of package": [compact(manifest("image", "debian", "node", "python", "parts", "deep")), *map(compact, RECORDS), "", ""],
    "alpine": [compact(manifest("image", "alpine")), *map(compact, RECORDS)],
    "marks and covers": [compact(manifest("image", "debian", "node", "marks", "cover", "marks", "node")), *map(compact, RECORDS)],
    "many records": [compact(manifest("image", *["debian"] * 30)), *map(compact, MANY)],
    "a bad record": [compact(manifest("image", "debian")), compact(DEB), '{"id":"A","modified":"","affected":[{"ranges":[{"type":"X","events":[{"fixed":1}]}]}]}'],
    "a record twice": [compact(manifest("image", "debian")), compact(DEB), compact(NPM), compact(DEB)],
    "deep JSON": [compact(manifest("image", "debian")), '{"id":"A","modified":"","x":' + "[" * 120 + "]" * 120 + "}", "[" * 5000],
    "seals": [compact(manifest("image", sealed("debian"), "node", sealed("marks with bytes"), sealed("parts"))), *map(compact, RECORDS)],
    "another seal": [compact(manifest("image", sealed("debian"), ("marks with bytes", digest("no seal")))), compact(DEB)],
    "a bad mark before another seal": [compact(manifest("image", ("debian", digest("no seal")), "bad mark"))],
    "a seal that is no digest": [compact(manifest("image", sealed("debian"), ("node", None)))],
    "escapes": [compact(manifest("image", "node")), '{"id":"\\ud83d\\ude00\\u0000","modified":"\\"\\\\","affected":[{"package":{"ecosystem":"npm","name":"n1"},"versions":["1.1.0-rc.1+build"]}]}', '{"id":"\\ud800"}'],
}


# ---- the lines of `sbom`


def manifests():
    """The first lines of the scans, each once, with the name of its first scan."""
    names = {}
    for name, texts in SCANS.items():
        names.setdefault(tuple(texts[:1]), name)
    return {name: list(texts) for texts, name in names.items()}


SBOMS = manifests() | {
    "empty lines after the manifest": [compact(manifest("image", "debian", "node")), "", ""],
    "a further line": [compact(manifest("image", "debian", "node")), "", compact(DEB)],
}


# ---- component lists, and the lines of their scans


def component(name, version, **values):
    """A package of a component list, of npm unless the values say otherwise. A property whose value is None is left out."""
    texts = {"arch": "", "ecosystem": "npm", "kind": "npm", "path": f"app/node_modules/{name}/package.json", "source": name, "source_version": version, **values}
    properties = [{"name": f"cvwatch:{word}", "value": text} for word, text in texts.items() if text is not None]
    return {"name": name, "properties": properties, "type": "library", "version": version}


def component_list(components, **members):
    """A component list of the image `image`, with further members or others."""
    metadata = {"component": {"name": digest("image"), "type": "container"}}
    return {"bomFormat": "CycloneDX", "components": components, "metadata": metadata, "specVersion": "1.5", "version": 1, **members}


def debian_component(name, version):
    return component(name, version, arch="amd64", ecosystem="Debian:12", kind="deb", path=STATUS, source="src", source_version="2:1.0~rc1-1")


PACKAGES = [
    debian_component("lib1", "1.1-1"), debian_component("lib0", "1.0-1"), component("n3", "1.3.0-rc.1+build"), component("@a/b", "1.0.0"),
    component("lib5", "1.5_rc1-r2", arch="x86_64", ecosystem="Alpine:v3.18", kind="apk", path="lib/apk/db/installed", source="origin", source_version="1.5_rc1-r2"),
    component("P_.-3", "1!1.3.0rc2.post1", ecosystem="PyPI", kind="pypi", path="opt/P_3.dist-info/METADATA", source="p-3"),
]
NO_PACKAGES = [
    None, [], "x", {}, {"name": "x", "version": "1", "type": "library", "purl": "pkg:npm/x@1"}, component("", ""), component("x", None), component(1, "1"), component("x", "1", arch=None), component("x", "1", arch=1),
    component("x", "1", kind="gem"), component("x", "1", path=""), component("x", "1", path="/x"), component("x", "1", path="x/../y"), {**component("x", "1"), "properties": None}, {**component("x", "1"), "properties": [None, {}]},
]
TWICE = {**component("n3", "1.3.0-rc.1+build"), "properties": component("n3", "1.3.0-rc.1+build")["properties"] + component("other", "2")["properties"]}
LISTS = {
    "an empty input": [],
    "no JSON": [b"{"],
    "an empty line": ["", compact(DEB)],
    "no object": ["[]", compact(DEB)],
    "another format": [compact(component_list([], bomFormat="SPDX")), "{"],
    "components that are no list": [compact(component_list(None))],
    "no components": ['{"bomFormat":"CycloneDX"}', compact(DEB)],
    "each kind of package": [compact(component_list(PACKAGES)), *map(compact, RECORDS), "", ""],
    "components that are no packages": [compact(component_list(NO_PACKAGES + PACKAGES)), *map(compact, RECORDS)],
    "packages and properties twice": [compact(component_list([*PACKAGES, TWICE, *reversed(PACKAGES)])), *map(compact, RECORDS)],
    "many components and records": [compact(component_list([component(f"n{number * 7919 % 300}", f"1.{number}.0") for number in range(300)])), *map(compact, RECORDS + MANY)],
    "an image that is no digest": [compact(component_list(PACKAGES, metadata={"component": {"name": "debian:12"}})), compact(DEB)],
    "a bad record": [compact(component_list(PACKAGES)), compact(DEB), '{"id":"A","modified":"","affected":null}'],
    "a record twice": [compact(component_list(PACKAGES)), compact(DEB), compact(NPM), compact(DEB)],
    "deep JSON": [compact(component_list(PACKAGES, x=None)).replace('"x":null', '"x":' + "[" * 120 + "]" * 120), compact(DEB), "[" * 5000],
    "escapes": [compact(component_list([component("caf\u00e9\0", "\U0001f600")])).replace("CycloneDX", "\\u0043ycloneDX"), compact(NPM)],
}


# ---- the lines of sessions of a service

NO_REQUESTS = [
    "{", "[]", " ", '{"do":"fly"}', '{"do":"list","lane":8}', '{"do":"register"}', '{"do":"report","image":"none"}', '{"do":"page","number":1,"size":1001,"page":1}',
    '{"do":"update","feed":"A","advisories":[]}', '{"do":"update","feed":"a","advisories":[{}]}', '{"do":"list","a":1e999}', '{"do":"\\ud800"}', '{"do":"ack","number":-1}',
]


def register(image, *layers, lane=0):
    return compact({"do": "register", "lane": lane, "manifest": manifest(image, *layers)})


def update(feed, records, lane=0):
    return compact({"do": "update", "feed": feed, "advisories": records, "lane": lane})


def about(word, image, lane=0):
    return compact({"do": word, "image": digest(image), "lane": lane})


PAGES = ['{"do":"list"}', *('{"do":"page","number":%d,"size":%d,"page":1}' % (number, size) for number in (1, 2, 3) for size in (1, 1000)), '{"do":"ack","number":1}', '{"do":"list"}']
SERVICES = {
    "lines that are no requests": [*NO_REQUESTS, '{"do":"list"}', "", *NO_REQUESTS, "", ""],
    "layers that fail": [
        register("a", "debian", "absent"), register("b", "debian", "file"), register("c", "bad mark"), register("d", "bad status"), "", "",
        *(about("report", image) for image in "abcd"), update("x", [DEB]), "", about("drop", "b"), *(about("report", image) for image in "abcd"),
    ],
    "notifications": [
        register("a", "debian", "parts"), register("b", "node", "deep"), register("c", "python", "marks"), "", "",
        update("x", RECORDS), "", update("x", [{**NPM, "modified": "later"}, DEB_2, NPM_2]), "", update("y", MANY), "", *PAGES, *(about("report", image) for image in "abc"),
    ],
    "seals": [
        register("a", sealed("debian"), sealed("marks with bytes")), register("b", "debian", ("node", digest("no seal"))), register("a", "debian", sealed("marks with bytes")), register("c", ("node", "x")), "", "",
        register("a", sealed("debian"), sealed("marks with bytes")), register("b", "debian", "node"), update("x", RECORDS), "", *(about("report", image) for image in "abc"), *PAGES,
    ],
    "lanes": [
        *(register(f"image {number}", "debian", *["node"] * (number % 3), lane=number) for number in range(8)), "",
        *(update(f"feed-{number}", [PYPI, NPM][: number % 3], lane=number) for number in range(8)), *(about("report", f"image {number}", lane=7 - number) for number in range(8)), "",
        *(about("drop", f"image {number}", lane=number) for number in range(4)), *(register(f"image {number}", "node", lane=number) for number in range(8)), "", '{"do":"list","lane":3}',
    ],
}


# ---- the arguments of comparisons

ORDERS = {
    "debian": ["deb", "1:1.0~rc1-1+b1", "1:1.0-1"],
    "debian, no version": ["deb", "a:1", "1"],
    "debian, long": ["deb", "1" * 5000, "1" * 4999 + "2"],
    "apk": ["apk", "1.2.3a_rc1_p2-r1", "1.2.3a_rc1-r1"],
    "semver": ["semver", "1.0.0-rc.1.18446744073709551616", "1.0.0-rc.2"],
    "pypi": ["pypi", "1!1.0a1.post2.dev3+local.7", "v1!1.0.0a1"],
    "no order": ["rpm", "1", "2"],
}


def lines(texts):
    """The bytes of these lines."""
    return b"".join((text if isinstance(text, bytes) else text.encode()) + b"\n" for text in texts)
