#!/usr/bin/env bash
# What a build server does with an application in the folder that is named: it says what is likely a mistake, makes the image and the
# table that certifies it, checks the one by the other, and runs the event texts of the folder. In `out` are then app.image, app.table,
# app.text (what `show` and `report` print), app.sums, lint.sarif and junit.xml. Where LAST is the app.text of the last version, a call
# site that has become general makes the status 1; so does a path of calls in C files of the folder, whose headers are in its `include`, that
# the task code lacks.
# usage: build_server.sh FOLDER [LAST], with OSEKFIT for the program where it isn't on the PATH
set -euo pipefail
tools=$(cd "$(dirname "$0")/.." && pwd)
osekfit=${OSEKFIT:-osekfit}
folder=$1 last=${2-}
oil=$(echo "$folder"/*.oil) code=$(echo "$folder"/*.code)
mkdir -p out
c_files=("$folder"/*.c)
[ ! -e "${c_files[0]}" ] || "$tools/model_c.py" --oil "$oil" -I "$folder/include" --check "$code" "${c_files[@]}"
"$tools/lint.py" --sarif "$oil" "$code" > out/lint.sarif || [ $? -eq 1 ]
"$tools/explain.py" "$osekfit" certify "$oil" "$code" out/app.image out/app.table
"$osekfit" check out/app.image out/app.table
"$osekfit" show "$oil" "$code" > out/app.text
"$osekfit" report "$oil" "$code" >> out/app.text
(cd out && sha256sum app.image app.table app.text > app.sums)
"$tools/regress.py" --program "$osekfit" --junit out/junit.xml "$folder"
[ -z "$last" ] || "$tools/report_diff.py" --fail-on general "$last" out/app.text
