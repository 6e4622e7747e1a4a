# usage: sh bench/fetch_peers.sh FOLDER
#
# Puts what bench/peers measures beside this heap into the folder, which is made, as far as the system's packages have it (Debian). Nothing is
# installed. Takes a minute, and needs apt-get and dpkg:
#   libmimalloc.so.2, libjemalloc.so.2, libtbbmalloc.so.2 and its libtbbmalloc_proxy.so.2;
#   libmimalloc.so.3, from the release after bookworm, trixie, where the system's own has none;
#   kamailio/tlsf_malloc.c, tlsf_malloc.h and tlsf_malloc_bits.h, mattconte/tlsf 3.0 with statistics of Kamailio's, from its sources;
#   tlsf.c of TLSF 2.4, from the sources of supercollider.
set -u
mkdir -p "$1/apt" "$1/kamailio" && cd "$1/apt" || exit 1
release=$(. /etc/os-release && echo "$VERSION_CODENAME")

# fetch LISTS OPTIONS WORD..: apt-get, with lists and files of packages in this folder.
fetch() {
    lists=$1 options=$2
    shift 2
    mkdir -p "$PWD/$lists/partial"
    # shellcheck disable=SC2086
    apt-get -qq -o APT::Sandbox::User=root -o "Dir::State::Lists=$PWD/$lists" -o "Dir::Cache=$PWD" $options "$@"
}

# list KIND SUITE: makes a list of that name, of packages (deb) or of sources (deb-src), at the place that the system names for its own.
list() {
    fetch packages '' indextargets --format "$1 \$(REPO_URI) $2 \$(COMPONENT)" "Codename: $release" "Component: main" | sort -u > "$1-$2"
}

# take LISTS OPTIONS PACKAGE FILE..: the files of a package.
take() {
    fetch "$1" "$2" download "$3" && dpkg -x "$3"_*.deb files || return
    shift 3
    for file; do cp "$(find files -name "$file" | head -n 1)" ..; done
}

# On a new machine there are no lists of packages.
fetch packages '' update
take packages '' libmimalloc2.0 libmimalloc.so.2
take packages '' libjemalloc2 libjemalloc.so.2
take packages '' libtbbmalloc2 libtbbmalloc.so.2 libtbbmalloc_proxy.so.2
if ! take packages '' libmimalloc3 libmimalloc.so.3; then
    list deb trixie
    newer="-o Dir::Etc::SourceList=$PWD/deb-trixie -o Dir::Etc::SourceParts=/dev/null"
    fetch trixie "$newer" update
    take trixie "$newer" libmimalloc3 libmimalloc.so.3
fi
# The sources are in a list that the system may not name.
list deb-src "$release"
only="-o Dir::Etc::SourceList=$PWD/deb-src-$release -o Dir::Etc::SourceParts=/dev/null"
fetch sources "$only" update
fetch sources "$only" source --download-only kamailio &&
    tar xf kamailio_*.orig.tar.* --wildcards '*/src/core/mem/tlsf_malloc*.[ch]' --strip-components 4 && mv tlsf_malloc* ../kamailio
fetch sources "$only" source --download-only supercollider &&
    tar xf supercollider_*.orig.tar.* --wildcards '*/TLSF*/src/*.[ch]' --strip-components 4 && cp ./*.[ch] ..
