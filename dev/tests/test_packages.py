"""What dev/dist makes: Debian's packages. Nothing of this machine is changed.

They are built twice, under two time zones and masks for new files, and are compared byte by byte.
Then their files are compared with the repository's, lintian is asked, and the man pages are
rendered. Where root calls it, they are installed, run a day (debian/tests/day) and are purged in a
root laid over this one, which goes away. `make plant-test` installs them, and takes them away.
"""
import concurrent.futures
import os
import pathlib
import re
import shutil
import subprocess
from typing import Any, Iterator

import pytest
from tracedesk_dev import ROOT, program
from tracedesk_ops import plant

pytestmark = [
    pytest.mark.needs("pandoc", "help2man", "dh_builddeb", "dpkg-buildpackage"),
    pytest.mark.xdist_group("packages"),
]

NAMES = ("tracedesk", "tracedesk-plant", "tracedesk-send")
FOR_CONTRIBUTORS = "CONTRIBUTING|DECISIONS|architecture|lesson"  # pages in no package


def run(*words: object, **how: Any) -> "subprocess.CompletedProcess[str]":
    how = {"stdout": subprocess.PIPE, "stderr": subprocess.STDOUT, **how}
    return subprocess.run([str(it) for it in words], stdin=subprocess.DEVNULL, text=True, **how)


class Packages:
    """What was made, unpacked: `deb`, all three, is a tree from / on, `control` has a folder of
    each .deb's own files.
    """

    def __init__(self, program: str, room: pathlib.Path) -> None:
        self.program, self.room = program, room
        self.deb, self.control = room / "deb", room / "control"
        self.control.mkdir()
        with concurrent.futures.ThreadPoolExecutor(2) as threads:
            self.first, self.second = threads.map(self.built, (0, 1))
        self.packages = sorted(self.first.glob("*.deb"))
        assert tuple(sorted(it.name.partition("_")[0] for it in self.packages)) == NAMES
        for it in self.packages:
            run("dpkg-deb", "--extract", it, self.deb, check=True)
            run("dpkg-deb", "--control", it, self.control / it.name.partition("_")[0], check=True)

    def built(self, number: int) -> pathlib.Path:
        """All, in a folder of their own; the surroundings differ each time."""
        to = self.room / f"built {number}"
        zone = {"TZ": ("UTC", "Asia/Tokyo")[number], "LC_ALL": ("C.UTF-8", "C")[number]}
        words = [ROOT / "dev/dist", "--program", self.program, "--to", to]
        done = run(*words, env={**os.environ, **zone}, umask=(0o022, 0o077)[number])
        assert done.returncode == 0, done.stdout[-900:]
        return to

    def commands(self) -> list[pathlib.Path]:
        return sorted((self.deb / "usr/bin").iterdir())

    def version(self) -> str:
        return run(self.deb / "usr/bin/tracedesk", "--version").stdout.split()[1]


@pytest.fixture(scope="module")
def packages(
    program: pathlib.Path, tmp_path_factory: pytest.TempPathFactory
) -> "Iterator[Packages]":
    yield Packages(str(program), tmp_path_factory.mktemp("packages"))


def test_the_same_program_and_sources_give_the_same_bytes(packages: Packages) -> None:
    for file in sorted(packages.first.iterdir()):
        assert file.read_bytes() == (packages.second / file.name).read_bytes(), file.name


def test_the_code_of_others_is_listed() -> None:
    """The list in SPDX and the licences are of what crates.txt and the kit's libraries name."""
    if shutil.which("rt") is None:
        pytest.skip("there is no kit")
    done = run(ROOT / "dev/sbom", "--check")
    assert (done.returncode, done.stdout) == (0, "")


def test_each_file_for_a_plant_is_there(packages: Packages) -> None:
    """Each unit, list of users and folders, tool, module, page of the station and document; and
    the bytes of the programs are theirs.
    """
    tracked = run("git", "-C", ROOT, "ls-files", check=True).stdout.split()
    places = (
        (r"packaging/(.*\.(?:service|socket|timer))", r"lib/systemd/system/\1"),
        (r"packaging/(.*)\.(sysusers|tmpfiles)", r"usr/lib/\2.d/\1.conf"),
        (r"packaging/((?:limits|prometheus)/.*)", r"usr/share/tracedesk/\1"),
        (r"ops/(tracedesk-[^/]*|tracedesk_ops/.*)", r"usr/lib/tracedesk/\1"),
        (r"ops/(tracedesk-[^/]*)", r"usr/bin/\1"),
        (r"ops/(plant/.*\.sql)", r"usr/share/tracedesk/\1"),
        (r"clients/python/(tracedesk/.*)", r"usr/lib/python3/dist-packages/\1"),
        (r"examples/(bridge/[^/]*)", r"usr/lib/tracedesk/\1"),
        (r"(station/[^/]*)", r"usr/share/tracedesk/\1"),
        (r"docs/(api/.*\.json)", r"usr/share/doc/tracedesk/\1"),
        (rf"(?:docs/)?(?!(?:{FOR_CONTRIBUTORS})\.)([^/]*)\.md", r"usr/share/doc/tracedesk/\1.html"),
        (r"packaging/(.*\.spdx\.json)", r"usr/share/doc/tracedesk/\1"),
        (r"packaging/(third-parties\.txt)", r"usr/share/doc/tracedesk/\1.gz"),
    )
    wanted = {
        re.sub(form, at, it) for it in tracked for form, at in places if re.fullmatch(form, it)
    }
    pages = {it.stem for it in (packages.deb / "usr/share/doc").rglob("*.html")}
    assert not pages & set(FOR_CONTRIBUTORS.split("|"))
    assert len(wanted) > 200 and [it for it in wanted if not (packages.deb / it).is_file()] == []
    programs = {"tracedesk": packages.program}
    programs |= {
        f"tracedesk-{it}": str(plant.next_to(packages.program, it)) for it in program.OTHERS
    }
    for name, its in programs.items():
        assert (packages.deb / "usr/bin" / name).read_bytes() == pathlib.Path(its).read_bytes()


@pytest.mark.needs("man")
def test_each_command_has_a_help_with_examples_the_version_and_a_man_page(
    packages: Packages,
) -> None:
    version = packages.version()
    assert f"\n## [{version}]" in (ROOT / "CHANGELOG.md").read_text(encoding="utf-8")
    for it in packages.commands():
        told = run(it, "--help").stdout
        assert re.search(rf"^usage: (?:python3 )?{it.name}\b", told, re.M | re.I), told
        assert it.name == "tracedesk" or "\nexamples:\n" in told.lower(), it.name
        assert run(it, "--version").stdout == f"{it.name} {version}\n"
        page = packages.deb / f"usr/share/man/man1/{it.name}.1.gz"
        env = {**os.environ, "LC_ALL": "C.UTF-8", "MANWIDTH": "200"}
        done = run("man", "--warnings", "-l", page, env=env, stderr=subprocess.PIPE)
        assert (done.returncode, done.stderr) == (0, ""), it.name
        options = set(re.findall(r"^ +(--[a-z-]+)", told, re.M))
        assert [name for name in options if name not in done.stdout.replace("\b", "")] == []


def test_no_link_of_a_document_leads_nowhere(packages: Packages) -> None:
    pages = sorted((packages.deb / "usr/share/doc").glob("tracedesk*/*.html"))
    assert len(pages) > 25
    for page in pages:
        for link in re.findall(r'href="([^"#:]+)["#]', page.read_text(encoding="utf-8")):
            assert (page.parent / link).exists(), (page, link)


def test_what_a_plant_edits_is_a_conffile(packages: Packages) -> None:
    """What a plant edits is a conffile, and nothing else is; the scripts are shell that dash
    takes.
    """
    told = (packages.control / "tracedesk-plant/conffiles").read_text().split()
    assert [it.parent.name for it in packages.control.glob("*/conffiles")] == ["tracedesk-plant"]
    there = [it for it in (packages.deb / "etc").rglob("*") if it.is_file()]
    assert sorted(told) == sorted(f"/{it.relative_to(packages.deb)}" for it in there)
    assert told == ["/etc/nginx/sites-available/tracedesk", "/etc/tracedesk/station/setup.json"]
    kinds = ("postinst", "prerm", "postrm")
    scripts = [it for name in kinds for it in packages.control.glob(f"*/{name}")]
    assert len(scripts) == 3 * len(NAMES)
    for it in scripts:
        assert run("sh", "-n", it).returncode == 0, it
        assert not re.findall(r"^[^#\n]*#[A-Z]+#", it.read_text(), re.M), it


def test_each_package_stands_alone_or_names_what_it_needs(packages: Packages) -> None:
    """The desk wants no Python, the sender neither of the others, and the tools the very versions
    of both.
    """
    control = {name: (packages.control / name / "control").read_text() for name in NAMES}
    needs = {name: re.findall(r"^Depends: (.*)", text, re.M)[0] for name, text in control.items()}
    version = re.findall(r"^Version: (.*)", control["tracedesk"], re.M)[0]
    assert "python" not in needs["tracedesk"] and "tracedesk" not in needs["tracedesk"]
    assert "python3" in needs["tracedesk-send"]
    assert not re.search(r"tracedesk(-plant)? \(", needs["tracedesk-send"])
    for name in ("tracedesk", "tracedesk-send"):
        assert f"{name} (= {version})" in needs["tracedesk-plant"]


OTHER_ROOT = r"""
mount --make-rprivate / && mount -t tmpfs room "$1" && mkdir "$1/up" "$1/work" "$1/root" || exit 77
mount -t overlay tried -o "lowerdir=/,upperdir=$1/up,workdir=$1/work" "$1/root" 2> /dev/null || exit 77
cd "$1/root" && mkdir tried && cp "$2"/*.deb tried && mount -t proc proc proc && mount -t tmpfs run run && mount --rbind /dev dev || exit 77
cp "$4" day && exec chroot . env -i PATH=/usr/sbin:/usr/bin:/sbin:/bin HOME=/root LC_ALL=C.UTF-8 DEBIAN_FRONTEND=noninteractive sh -exc "$3" 2>&1
"""
INSTALLED = """
dpkg --no-triggers --force-depends --install /tried/*.deb
systemctl is-enabled tracedesk tracedesk-line-seal@L1.timer tracedesk-line-rollover@L1.timer || true
cd / && python3 -c 'import tracedesk; print("package", tracedesk.__version__, tracedesk.__file__)'
python3 /usr/share/tracedesk/tracedesk-send.pyz --version
ip link set lo up
AUTOPKGTEST_TMP=$(mktemp -d) sh -x /day > /day.log 2>&1 && echo a day passed || tail -n 20 /day.log
echo '{"MessageName":"TraceDesk.PartsDefined","UniqueID":"u1","Source":"S","TimeStamp":"1970-01-01T00:00:00Z","MessageBody":{"PartNumber":"P"}}' | tracedesk-send --validate - || true
stat -c '%n %U %G %a' /etc/tracedesk /var/lib/tracedesk /var/lib/tracedesk/sealed /var/lib/tracedesk/status
for who in www-data tracedesk-send; do setpriv --reuid=$who --regid=$who --init-groups sh -c 'umask 022; cd / && echo x > /var/lib/tracedesk/status/$1.json && ! ls /var/lib/tracedesk 2> /dev/null' sh $who; done
runuser -u tracedesk -- sh -c 'cat /var/lib/tracedesk/status/*.json && rm /var/lib/tracedesk/status/*.json'
runuser -u tracedesk -- tracedesk feed --db /var/lib/tracedesk/desk < /dev/null
echo changed > /etc/tracedesk/station/setup.json; touch /etc/tracedesk/senders
ln -s ../sites-available/tracedesk /etc/nginx/sites-enabled/tracedesk || mkdir -p /etc/nginx/sites-enabled
dpkg --no-triggers --force-depends --install /tried/*.deb
cat /etc/tracedesk/station/setup.json
dpkg --no-triggers --purge tracedesk-plant tracedesk-send tracedesk
echo left $(find /bin /etc /lib /usr /var/lib/tracedesk -xdev -name '*tracedesk*' -o -path '/var/lib/tracedesk/*' | sort)
dpkg --no-triggers --force-depends --install /tried/*.deb
runuser -u tracedesk -- tracedesk audit --db /var/lib/tracedesk/desk
"""


def test_it_is_installed_and_purged_in_a_root_that_goes_away(packages: Packages) -> None:
    """Installed, installed over itself and purged in a root that goes away: nothing is switched on,
    changes and the desk stay.
    """
    if os.geteuid() or not shutil.which("unshare") or not shutil.which("systemd-sysusers"):
        pytest.skip("it wants root, and a Debian with systemd")
    if shutil.which("tracedesk", path="/usr/bin:/usr/local/bin"):
        pytest.skip("tracedesk is installed here")
    room = packages.room / "other"
    room.mkdir()
    done = run(
        *("unshare", "--mount", "--net", "sh", "-c", OTHER_ROOT, "sh"),
        *(room, packages.first, INSTALLED, ROOT / "debian/tests/day"),
    )
    if done.returncode == 77:
        pytest.skip("no root can be laid over this one")
    for wanted in (
        "\ndisabled\ndisabled\ndisabled\n",
        (
            "\n/etc/tracedesk root www-data 750\n/var/lib/tracedesk tracedesk tracedesk"
            " 710\n/var/lib/tracedesk/sealed tracedesk tracedesk 700\n/var/lib/tracedesk/status"
            " tracedesk tracedesk 2770\n"
        ),
        f"\npackage {packages.version()} /usr/lib/python3/dist-packages/tracedesk/__init__.py\n",
        f"\ntracedesk-send {packages.version()}\n",
        "\na day passed\n",
        "there is no message 'TraceDesk.PartsDefined'; is TraceDesk.PartDefined meant?",
        "tracedesk: there is no desk yet",
        "\nchanged\n",
        "tracedesk: /var/lib/tracedesk is kept",
        "tracedesk-plant: /etc/tracedesk is kept",
        (
            "\nleft /etc/tracedesk /var/lib/tracedesk /var/lib/tracedesk/desk"
            " /var/lib/tracedesk/desk-wal\n"
        ),
        "\nlawful 0\n",
    ):
        assert not done.returncode and wanted in done.stdout, done.stdout[-3000:]


@pytest.mark.needs("lintian")
def test_lintian_finds_nothing(packages: Packages) -> None:
    """Nothing but what debian/*.lintian-overrides name, each with its reason."""
    words = ("lintian", "--profile", "debian", "--allow-root", "--fail-on", "error,warning")
    done = run(*words, *packages.packages)
    said = [it for it in done.stdout.splitlines() if not it.startswith("N:")]
    assert (done.returncode, said) == (0, [])
