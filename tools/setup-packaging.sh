#!/bin/sh
# Installs Debian's packages that tools/package.sh needs to build the wheel and the Debian package; with --quick also those of
# 'tests/install.sh quick', and with --all those of 'tests/install.sh all'.
# Usage: tools/setup-packaging.sh [--quick | --all] [--check]. With --check nothing is installed. Status 1 if something is missing at
# the end; then the command that installs it is written on standard error.
set -u

packages='git gzip dpkg help2man python3 python3-hatchling'
for_quick='fish lintian man-db python3-jinja2 python3-matplotlib python3-networkx python3-pandas python3-pip python3-plotly
    python3-statsmodels python3-tomlkit python3-tqdm python3-venv unzip zsh'
for_all='debootstrap jupyter-nbconvert python3-ipykernel'
check=
for word; do
    case $word in
        --quick) packages="$packages $for_quick" ;;
        --all) packages="$packages $for_quick $for_all" ;;
        --check) check=1 ;;
        *)
            echo "usage: tools/setup-packaging.sh [--quick | --all] [--check]" >&2
            exit 2
            ;;
    esac
done

# The packages that are not there, each with a blank before it.
missing() {
    for package in $packages; do
        dpkg-query -W -f '${Status}' "$package" 2>/dev/null | grep -q ' installed$' || printf ' %s' "$package"
    done
}

if [ -z "$check" ] && [ -n "$(missing)" ] && [ "$(id -u)" -eq 0 ]; then
    apt-get -q update >&2
    # shellcheck disable=SC2046 # Each name is a word.
    DEBIAN_FRONTEND=noninteractive apt-get -q -y -o DPkg::Lock::Timeout=300 --no-install-recommends install $(missing) >&2
fi
if [ -n "$(missing)" ]; then
    echo "missing on this machine; on Debian: apt-get install$(missing)" >&2
    exit 1
fi
