# sh examples/rattle/setup.sh FOLDER
# Makes FOLDER, which must not be there yet, a repository of one's own: the four crates of the library and the crates
# of this example. A gate refuses a .rt file outside the crates of its own list, so here each has .txt behind its name.
set -eu
here=$(cd "$(dirname "$0")" && pwd)
library=$here/../../crates
folder=${1:?a folder to make}
[ ! -e "$folder" ] || { echo "$folder is there already" >&2; exit 2; }
mkdir -p "$folder/crates"
for crate in odht_base odht_header odht_raw odht; do
  mkdir "$folder/crates/$crate"
  for part in src specs proofs; do
    [ ! -d "$library/$crate/$part" ] || cp -R "$library/$crate/$part" "$folder/crates/$crate/$part"
  done
done
cd "$here"
find crates -type f | while IFS= read -r file; do
  mkdir -p "$folder/$(dirname "$file")"
  cp "$file" "$folder/${file%.txt}"
done
cp crates.list "$folder/crates.txt"
cd "$folder" && git init -q .
