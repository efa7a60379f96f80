# For scripts that need Mercurial: `with_hg` installs it where it is missing and can be, and says whether it is there.
with_hg() {
    if ! command -v hg >/dev/null && [ "$(id -u)" = 0 ] && command -v apt-get >/dev/null; then
        { apt-get update -qq && DEBIAN_FRONTEND=noninteractive apt-get install -y -qq mercurial; } >/dev/null 2>&1
    fi
    export HGPLAIN=1 HGRCPATH=/dev/null HGUSER=test HGENCODING=UTF-8
    command -v hg >/dev/null
}
