#!/usr/bin/env bash
# Runs Jena.java, or Answers.java, with Apache Jena of Debian's packages on its class path (apt-get install libapache-jena-java default-jdk-headless).
# Usage: bench/jena.sh WORK WORD.., where WORK is a folder for what this unpacks and the WORDs are those of Jena.java, or of the program that JENA names.
set -euo pipefail
here=$(cd "$(dirname "$0")" && pwd)
work=$1
shift
jars=/usr/share/java
parts=(jena-arq jena-base jena-core jena-iri jena-dboe-base jena-dboe-index jena-dboe-storage jena-dboe-transaction jena-dboe-trans-data
    commons-cli commons-codec commons-compress commons-csv commons-io commons-lang3 dexx.collection guava failureaccess gson httpclient httpcore
    jackson-core jackson-databind jackson-annotations jsonld-java slf4j-api slf4j-nop thrift protobuf titanium-json-ld jakarta.json-api)
path=$work/classes
for part in "${parts[@]}"; do path=$path:$jars/$part.jar; done

# the package has the messages of its Xerces in another folder than it looks in
python3 - "$jars/jena-core.jar" "$work/classes" <<'PY'
import pathlib
import sys
import zipfile

jar, classes = zipfile.ZipFile(sys.argv[1]), pathlib.Path(sys.argv[2])
begins = "org/apache/jena/ext/"
for name in jar.namelist():
    if name.startswith(begins + "xerces/impl/") and name.endswith(".properties"):
        to = classes / name[len(begins) :]
        to.parent.mkdir(parents=True, exist_ok=True)
        to.write_bytes(jar.read(name))
PY
exec java -Xmx4g -cp "$path" "$here/${JENA:-Jena.java}" "$@" 2> "$work/jena.errors"
