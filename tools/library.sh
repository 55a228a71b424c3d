#!/bin/sh
# Proves the report and builds the library for C: target/staticlib/libreport.a.
set -eu
cd "$(dirname "$0")/.."
(cd crates/report_c && rt lib)
mkdir -p target/staticlib
cp crates/report_c/out/libreport_c.a target/staticlib/libreport.a
