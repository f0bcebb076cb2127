"""Files of records that two daemons write while they speak to each other: BIRD and GoBGP, in two network namespaces.

BIRD has AS 65001 and GoBGP AS 65002. Each announces IPv4 and IPv6 routes with attributes of many types; some are
withdrawn again, and the session ends with a shutdown communication. No packet leaves the machine. Processes are ended
by their numbers, and the namespaces are removed.
"""
import contextlib
import os
import subprocess
import sys
import time

BIRD = """
log stderr all;
router id 10.98.0.1;
mrtdump "{folder}/bird.mrt";
mrtdump protocols all;
protocol device {{ }}
protocol static static4 {{
    ipv4 {{ import filter {{
        bgp_community.add((65001, 7));
        bgp_ext_community.add((rt, 65001, 70000));
        bgp_large_community.add((65001, 1, 4294967295));
        bgp_med = 20;
        accept;
    }}; }};
    route 192.0.2.0/24 blackhole;
    route 198.51.100.128/25 blackhole;
    route 203.0.113.7/32 blackhole;
}}
protocol static static6 {{
    ipv6 {{ import all; }};
    route 2001:db8:1::/48 blackhole;
    route 2001:db8:2:3::/64 blackhole;
}}
protocol mrt table4 {{ table "master4"; filename "{folder}/bird4.rib"; period 3; }}
protocol mrt table6 {{ table "master6"; filename "{folder}/bird6.rib"; period 3; }}
protocol bgp gobgp {{
    local 10.98.0.1 as 65001;
    neighbor 10.98.0.2 as 65002;
    advertise hostname on;
    enable extended messages on;
    ipv4 {{ import all; export all; next hop self; add paths on; }};
    ipv6 {{ import all; export all; next hop address 2001:db8:98::1; add paths on; }};
}}
"""
GOBGP = """
[global.config]
as = 65002
router-id = "10.98.0.2"
[[mrt-dump]]
[mrt-dump.config]
dump-type = "updates"
file-name = "{folder}/gobgp.mrt"
[[neighbors]]
[neighbors.config]
neighbor-address = "10.98.0.1"
peer-as = 65001
[[neighbors.afi-safis]]
[neighbors.afi-safis.config]
afi-safi-name = "ipv4-unicast"
[neighbors.afi-safis.add-paths.config]
receive = true
send-max = 4
[[neighbors.afi-safis]]
[neighbors.afi-safis.config]
afi-safi-name = "ipv6-unicast"
"""
ROUTES = (
    "10.7.0.0/16 origin egp med 5 community 65002:1,no-export",
    "10.7.128.0/17 aspath 65010,65011,{65012,65013} aggregator 65010:10.98.0.9",
    "10.7.3.0/24 large-community 65002:1:2,65002:3:4 rt 65002:9",
    "0.0.0.0/0 origin incomplete",
)


def run(*command, **options):
    return subprocess.run(command, check=True, capture_output=True, **options)


@contextlib.contextmanager
def namespaces():
    """Two network namespaces with one link, on which each has the address of its number."""
    names = [f"octseq-{os.getpid()}-{number}" for number in (1, 2)]
    made = []
    try:
        for name in names:
            run("ip", "netns", "add", name)
            made.append(name)
        pair = ("name", "veth0", "type", "veth", "peer", "name", "veth0", "netns", names[1])
        run("ip", "-n", names[0], "link", "add", *pair)
        for number, name in enumerate(names, 1):
            run("ip", "-n", name, "addr", "add", f"10.98.0.{number}/24", "dev", "veth0")
            run("ip", "-n", name, "link", "set", "veth0", "up")
            run("ip", "-n", name, "link", "set", "lo", "up")
        yield names
    finally:
        for name in made:
            run("ip", "netns", "del", name)


@contextlib.contextmanager
def daemon(name, folder, *command):
    """A process in a namespace, which is ended at the end."""
    with open(folder / f"{command[0]}.log", "wb") as log:
        process = subprocess.Popen(["ip", "netns", "exec", name, *command], stdout=log, stderr=log)
        try:
            yield process
        finally:
            process.terminate()
            process.wait(timeout=30)


def wait_for(holds, seconds=60):
    for _ in range(seconds * 4):
        if holds():
            return
        time.sleep(0.25)
    sys.exit("the daemons don't get through")


def talk(folder, gobgp):
    """Waits for the session, has GoBGP announce and withdraw routes, and ends the session."""
    wait_for(lambda: b"Establ" in subprocess.run([*gobgp, "neighbor"], capture_output=True).stdout)
    for route in ROUTES:
        run(*gobgp, "global", "rib", "add", *route.split())
    run(*gobgp, "global", "rib", "add", "-a", "ipv6", "2001:db8:7::/48")
    time.sleep(4)
    run(*gobgp, "global", "rib", "del", "10.7.3.0/24")
    run(*gobgp, "neighbor", "10.98.0.1", "softresetin")
    time.sleep(1)
    run(*gobgp, "neighbor", "10.98.0.1", "shutdown", "--reason", "\u00e0 bient\u00f4t")
    time.sleep(2)


def files(folder):
    """The files of records that the daemons write into a folder."""
    (folder / "bird.conf").write_text(BIRD.format(folder=folder))
    (folder / "gobgp.toml").write_text(GOBGP.format(folder=folder))
    with namespaces() as (one, two):
        bird = ("bird", "-f", "-c", folder / "bird.conf", "-s", folder / "bird.ctl")
        with daemon(one, folder, *bird), daemon(two, folder, "gobgpd", "-f", folder / "gobgp.toml"):
            talk(folder, ("ip", "netns", "exec", two, "gobgp"))
    found = [path for path in sorted(folder.iterdir()) if path.suffix in (".mrt", ".rib") and path.stat().st_size]
    if len(found) < 4:
        sys.exit(f"only {[path.name for path in found]} were written")
    return found
