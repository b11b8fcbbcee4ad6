#!/usr/bin/env bash
# README.md's commands for installing, in a Debian that debootstrap makes from nothing, and the notebook. For tests/install.sh,
# which has says, dist, folder and the names of what is built.
# shellcheck disable=SC2154,SC2317 # tests/install.sh sets the names, and calls functions through `says`.

# The mirror of this machine, else Debian's.
mirror() {
    grep -hsoE 'https?://[^ ]*/debian/?( |$)' /etc/apt/sources.list /etc/apt/sources.list.d/* | head -n 1 | grep . || echo http://deb.debian.org/debian
}

# The blocks of commands of a section of README.md, by the number of the block.
# shellcheck disable=SC2016
commands() {
    sed -n "/^## $1\$/,/^## /p" "$top/README.md" | awk -v wanted="$2" '
        /^```sh$/ { block++; inside = 1; next }
        /^```/ { inside = 0 }
        inside && block == wanted'
}

# inside ROOT SCRIPT: runs the lines of a script in a folder that debootstrap made, as root, in a name space of its own, so that
# nothing stays mounted. A line that fails ends it.
# shellcheck disable=SC2016 # The inner shell has the words.
inside() {
    unshare --mount --pid --fork sh -c '
        mount --make-rprivate / && mount -t proc proc "$1/proc" && mount --bind /dev "$1/dev" &&
        exec chroot "$1" /usr/bin/env -i HOME=/root PATH=/usr/sbin:/usr/bin:/sbin:/bin DEBIAN_FRONTEND=noninteractive \
            LC_ALL=C.UTF-8 sh -c "cd /root && set -ex && $2"' sh "$1" "$2"
}

# A fresh Debian with nothing but what is always there, and the packages' lists.
fresh() {
    cp -a "$folder/debian" "$1" && cp "$dist/$deb" "$dist/$wheel" "$dist/$tarball" "$1/root/"
}

make_debian() {
    debootstrap --variant=minbase bookworm "$folder/debian" "$(mirror)" || return 1
    # Nobody answers apt, and what it writes need not outlast a loss of power.
    echo 'APT::Get::Assume-Yes "true";' > "$folder/debian/etc/apt/apt.conf.d/90tests"
    echo force-unsafe-io > "$folder/debian/etc/dpkg/dpkg.cfg.d/tests"
    inside "$folder/debian" 'apt-get -q update'
}

# Whether what a command wrote in a root ends with the report of the example, and whether there is a picture.
first_run() {
    grep -A 9 '^deliver' "$1" | head -n 10 | cmp - "$top/examples/expected/$example.report"
}

# What is left of the package once it is gone, but for what apt and the user's settings keep.
purged() {
    inside "$1" 'apt-get purge foldcairn' && [ -z "$(find "$1/usr" "$1/etc" "$1/var/lib/foldcairn" -iname '*foldcairn*' 2> /dev/null)" ]
}

debian_package() {
    local root=$folder/by-apt
    fresh "$root" || return 1
    inside "$root" "$(commands Install 1)" > "$folder/shown" 2>&1
    says "README.md's commands for the Debian package: status $?" first_run "$folder/shown"
    says "its first picture" is_picture "$root/root/first.svg"
    says "the example of README.md with the Debian package" inside "$root" "$(readme_script python3)"
    says "a page" inside "$root" 'foldcairn report --html report.html /usr/share/doc/foldcairn/examples/host-restarts.scenario'
    says "README.md's commands for the wheel beside the Debian package" inside "$root" "$(commands Install 2)"
    says "what the package leaves" purged "$root"
    rm -rf "$root"
}

# The example of README.md as commands that fail where it prints something else.
# shellcheck disable=SC2016
readme_script() {
    readme_python true > "$folder/written"
    cp "$folder/example.py" "$folder/wanted" "$root/root/" && echo "$1 example.py | diff wanted -"
}

# Without what Debian recommends: the packages that README.md names are enough.
debian_wheel() {
    local root=$folder/by-pip
    fresh "$root" || return 1
    echo 'APT::Install-Recommends "false";' >> "$root/etc/apt/apt.conf.d/90tests"
    says "README.md's commands for the wheel" inside "$root" "$(commands Install 2)"
    says "run" inside "$root" "planning/bin/foldcairn \$(planning/bin/foldcairn --help | sed -n 's/^  foldcairn run \(\/.*\)/run \1/p') > run.out"
    says "its report" cmp "$root/root/run.out" "$top/examples/expected/$example.report"
    says "the example of README.md with the wheel" inside "$root" "$(readme_script planning/bin/python)"
    inside "$root" "tar xzf $tarball && cd foldcairn-$version && $(commands Run 1)" > "$folder/shown" 2>&1
    says "README.md's commands in a clone: $(tail -n 3 "$folder/shown")" is_picture "$root/root/foldcairn-$version/first.svg"
    rm -rf "$root"
}

# The notebook as it is stored runs to its end, prints what the page shows, and has a picture where the page has one.
notebook() {
    mkdir "$folder/notebook" && cp "$top/examples/planning.ipynb" "$folder/notebook/" && cd "$folder/notebook" || return 1
    FOLDCAIRN=$top/foldcairn PYTHONPATH=$top/python/src "$python" -m nbconvert --to notebook --execute --output ran.ipynb planning.ipynb || return 1
    "$python" "$top/tools/notebook.py" "$top/docs/PLANNING.md" --compare ran.ipynb
}

installs_on_debian() {
    if [ "$(id -u)" -ne 0 ]; then
        says "debootstrap is run as root" false
        return
    fi
    says "a Debian from nothing" make_debian
    debian_package || says "the Debian package can be tried" false
    debian_wheel || says "the wheel can be tried" false
    says "the notebook" notebook
}
