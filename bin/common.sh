# shellcheck shell=bash
# What the scripts of this folder and of ports/arm64 share: which sources the programs and the page
# are made from, their digest, and where a program is. A machine is named as `uname -m` names it.
top=$(cd "${BASH_SOURCE[0]%/*}/.." && pwd)
programs=(edfstore edfruns edfserve edfmend)
page_crate=edf_page_exports
release=$top/release
dev=$release/dev

# Where the program $1 is when it was built here, for x86-64 or for the machine $2; for machines
# that no program is made for it prints nothing. And where the page is.
built() {
  case ${2:-x86_64} in
    x86_64) echo "$top/crates/$1/out/$1" ;;
    aarch64) echo "$top/ports/arm64/out/$1" ;;
  esac
}
built_page() {
  echo "$top/crates/$page_crate/out/edfstore.html"
}

# The crates $* and all that they stand on, a line each, by crates.txt.
crates_below() {
  awk -v tops="$*" '
    { sub(/#.*/, "") }
    split($0, sides, ":") < 2 { next }
    { split(sides[1], kind, " "); below[kind[1]] = sides[2] }
    function want(name) { if (!(name in seen)) { seen[name] = 1; wanted[++count] = name } }
    END {
      number = split(tops, names, " ")
      for (i = 1; i <= number; i++) want(names[i])
      for (at = 1; at <= count; at++) {
        print wanted[at]
        number = split(below[wanted[at]], names, " ")
        for (i = 1; i <= number; i++) if (names[i] in below) want(names[i])
      }
    }' "$top/crates.txt"
}

# Where the files are that the programs $* are made from, below the top; and they, in one order
# everywhere.
source_folders() {
  local crate part
  echo crates.txt
  for crate in $(crates_below "$@"); do
    for part in src specs proofs; do
      [ ! -d "$top/crates/$crate/$part" ] || echo "crates/$crate/$part"
    done
  done
}
source_files() {
  # shellcheck disable=SC2016     # sh puts them in
  source_folders "$@" | (cd "$top" && xargs -d '\n' sh -c 'find "$@" -type f' sh) | LC_ALL=C sort
}

# What the programs for the machine $1 are made from besides: for x86-64 nothing.
port_files() {
  [ "$1" != aarch64 ] || printf 'ports/arm64/%s\n' build host.c packages.sha256
}

# The files that the page is made from, with the script that makes it. It has texts of three
# documents beside, which are no sources: bin/release puts them in as they are.
page_files() {
  (cd "$top" && {
    source_files $page_crate
    find page -maxdepth 1 -type f
    echo bin/page
  } | LC_ALL=C sort)
}

# The SHA-256 of the names and the contents of the files that are read.
digest() {
  (cd "$top" && LC_ALL=C sort -u | xargs -d '\n' sha256sum) | sha256sum | cut -d ' ' -f 1
}

# That of all that a release is made from, and that of the programs for x86-64 alone.
sources_digest() {
  { source_files "${programs[@]}" && port_files aarch64 && page_files; } | digest
}
programs_digest() {
  source_files "${programs[@]}" | digest
}

# Runs `find` with these words over the files that the digests are of, their folders, and the scripts
# that say which they are.
look() {
  (cd "$top" && shopt -s nullglob && find crates/* -maxdepth 0 "$@" &&
    find crates.txt bin page ports crates/*/{src,specs,proofs} -path ports/arm64/out -prune -o "$@")
}

# The sum of a listing of the files and folders that are read: names, sizes, times, inodes.
listing() {
  cd "$top" && xargs -d '\n' stat -c '%n %s %.Y %.Z %i' 2>/dev/null | sha256sum
}

# What `$1_digest` prints. It is kept in release/out/$1, with the listing and the names in it, and
# holds while the listing is the same. A user who can't write there makes it anew each time.
kept_digest() {
  local listed digest='' new
  if [ -r "$release/out/$1" ]; then
    { read -r digest listed && [ "$listed" = "$(listing)" ] || digest=; } <"$release/out/$1"
  fi
  if [ -z "$digest" ]; then
    new=$({ umask 022 && mkdir -p "$release/out" && mktemp "$release/out/new.XXXXXX"; } 2>/dev/null)
    if digest=$("$1_digest") && [ -n "$new" ]; then
      keep "$digest" "$new" "$release/out/$1"
    fi
  fi
  echo "$digest"
}

# Keeps the digest $1 in the file $3, by way of the empty file $2, which was made before the sources
# were read. All of them must have changed before that, by the clock of the file system: then every
# later change gives another ctime, which no program sets, however coarse that clock is. `find`
# knows "later than" alone, so the file is made the least bit older.
keep() {
  local names listed
  names=$(look -print)
  listed=$(listing <<<"$names")
  if touch -r "$2" -d '-0.000000001 seconds' "$2" &&
    [ -z "$(look -newercm "$2" -print -quit)" ] &&
    printf '%s\n' "$1 $listed" "$names" >"$2" && chmod 644 "$2"; then
    mv "$2" "$3"
  else
    rm -f "$2"
  fi
}

# The version that the sources say. One under development ends in -dev.
source_version() {
  sed -n 's/^pub const VERSION: &str = "\(.*\)";$/\1/p' "$top/crates/edf_cli/src/words.rt"
}

# What a package has below its folder of documents: the licences, README, the documents and the
# examples, but for those whose scripts use `checks/lib`. Man pages have a place of their own.
document_files() {
  git -C "$top" ls-files -- 'LICENSE-*' '*.md' docs examples ':!docs/*.1' ':!examples/night' \
    ':!examples/oximeter/write.py'
}

# The version and the day of the newest heading in CHANGELOG, as `## 1.3.3-2, 2026-11-29`. The
# programs print what stands before the dash; the number behind it is another one where documents
# alone were changed.
newest_version() {
  local line
  line=$(grep -m 1 '^## ' "$top/CHANGELOG.md")
  if [[ ! $line =~ ^##\ ([0-9.]+(-[0-9]+)?),\ ([0-9]{4}-[0-9]{2}-[0-9]{2})$ ]]; then
    echo "CHANGELOG begins with '$line', which is no version with its day" >&2
    return 3
  fi
  echo "${BASH_REMATCH[1]} ${BASH_REMATCH[3]}"
}

# Those of a package. What is under development has a heading without a day: its package is of the
# day of docs/edfstore.1, and 2.0.0~dev, which Debian orders before 2.0.0.
package_version() {
  local version day
  version=$(source_version)
  if [ "$(grep -m 1 '^## ' "$top/CHANGELOG.md")-dev" = "## $version" ]; then
    day=$(sed -n 's/^\.TH EDFSTORE 1 "\([0-9-]*\)".*/\1/p' "$top/docs/edfstore.1")
    echo "${version%-dev}~dev $day"
  else
    newest_version
  fi
}

# Whether $1 is there and no file that is read, or is in a folder that is read, is newer.
is_newest() {
  # shellcheck disable=SC2016     # sh puts them in
  [ -e "$1" ] && [ -z "$(cd "$top" &&
    xargs -d '\n' sh -c 'find "$@" -type f -newer "$0" -print -quit' "$1")" ]
}

# Whether the file $1, which was made of the crate $2 for the machine $3, is there and no source of
# it is newer.
is_newer() {
  [ -e "$1" ] && { source_folders "$2" && port_files "$3"; } | is_newest "$1"
}

# Whether the program $1 was built here, for x86-64 or for the machine $2, and is not stale; and the
# page.
is_fresh() {
  is_newer "$(built "$@")" "$1" "${2:-x86_64}"
}
is_fresh_page() {
  { page_files && printf '%s\n' docs/REFUSALS.md LICENSE-MIT THIRD-PARTY.md; } |
    is_newest "$(built_page)"
}

# Whether this line is the verdict of a program that was proved for arm64.
names_arm64() {
  [[ $1 =~ ^logic=proved\ .*target=aarch64-unknown-linux-gnu\  && ! $1 =~ (hides|bugs)= ]]
}

# Whether the folder $1 has programs that were made from the sources that lie here: its SOURCES is
# what `$2_digest` prints.
is_of_these() {
  local digest
  [ -f "$1/SOURCES" ] && read -r digest <"$1/SOURCES" && [ "$digest" = "$(kept_digest "$2")" ]
}
is_released() {
  is_of_these "$release" sources
}

# The archive of programs for the machine $1 that SHA256SUMS names, if it names one.
released_archive() {
  local name
  while read -r _ name; do
    [[ $name != *-"$1"-linux.tar.xz ]] || echo "$name"
  done <"$release/SHA256SUMS"
}

# The archive in release/ of programs for the machine $1 that were made from these sources: that of
# the version under development, which is for x86-64 alone, or the released one; else nothing.
kept_archive() {
  if [ "$1" = x86_64 ] && is_of_these "$dev" programs; then
    echo dev/programs.tar.xz
  elif is_released; then
    released_archive "$1"
  fi
}

# Unpacks the archive $1 of release/, which must have the sum $2, into release/out/$2. Whatever the
# umask is, all users may run what is there, and only this one may change it. A line says what is in
# the way.
unpack() {
  local new
  cd "$release" || return 3
  if ! echo "$2  $1" | sha256sum --status -c 2>/dev/null; then
    echo "release/$1 is not as SHA256SUMS says: restore it by 'git checkout release'"
  elif ! command -v xz >/dev/null; then
    echo "release/$1 could not be unpacked: install xz-utils"
  elif [ ! -w out ] && { [ -e out ] || [ ! -w . ]; }; then
    echo "release/out can't be written by this user: clone as this user, or run this once as the" \
      "owner of the clone"
  elif umask 022 && mkdir -p out && new=$(mktemp -d out/new.XXXXXX); then
    if tar -xJf "$1" -C "$new" --strip-components=1 && chmod 755 "$new"; then
      # Another run may have been first: then its folder stays.
      mv -T "$new" "out/$2" 2>/dev/null || rm -rf "$new"
      return
    fi
    rm -rf "$new"
  fi
  return 3
}

# The path of the program $2 in the archive $1 of release/, which is unpacked once.
unpacked_program() {
  local path=$release/$1 sum name why
  while read -r sum name && [ "$name" != "${1##*/}" ]; do :; done <"${path%/*}/SHA256SUMS"
  if [ ! -x "$release/out/$sum/$2" ] && ! why=$(unpack "$1" "$sum" 2>&1); then
    echo "bin/$2: ${why%%$'\n'*}" >&2
    return 3
  fi
  echo "$release/out/$sum/$2"
}

# That of the released program $1 for x86-64, or for the machine $2.
released_program() {
  unpacked_program "$(released_archive "${2:-x86_64}")" "$1"
}

# The path of the program $1 to run on this machine, or on the machine $2: the one that was built
# here, where no source is newer; else the one in release/ or release/dev that was made from these
# sources; else, for x86-64, it is proved and built first.
chosen_program() {
  local machine=${2:-$(uname -m)} archive
  if is_fresh "$1" "$machine"; then
    built "$1" "$machine"
    return
  fi
  archive=$(kept_archive "$machine")
  if [ -n "$archive" ]; then
    unpacked_program "$archive" "$1"
  elif [ "$machine" != x86_64 ]; then
    archive=$(released_archive "$machine")
    echo "bin/$1: of these sources there is no program for $machine here; ports/arm64/build makes" \
      "it for aarch64, on x86-64${archive:+; release/$archive has that of other sources}" >&2
    return 3
  else
    echo "bin/$1: the programs in release/ are of other sources than these. To run them all the" \
      "same, stop this and unpack $release/$(released_archive x86_64)" >&2
    # Status 1 says that the bytes in release/ are others: what was proved here is run all the same.
    "$top/bin/build" "$1" >&2 </dev/null || [ $? = 1 ] || return 3
    built "$1"
  fi
}
