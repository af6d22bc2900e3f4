#!/usr/bin/env python3
"""A static router: it knows its networks from the start, and puts in all of its entries when its switch joins.

Each route is a network, the port behind which it lies, the router's own address there, and the address of the next
station. An entry for the network writes both addresses into the frame and sends it out. Longer prefixes have a greater
priority, so the most exact route counts. ARP is flooded. (OpenFlow 1.0 has no action that counts the time to live down.)

It is written with functions in place of a class, and needs additions alone. All routes are put in within one turn: if
one of them is refused, none of them stays.
"""

import uninstalled
from legosdn import App, Match, Output, Port, PortState, SetDlDst, SetDlSrc

ROUTER = 1
# Network, port, the router's address at that port, the next station's address.
ROUTES = [
    ("10.0.1.0/24", 1, "02:00:00:00:01:fe", "02:00:00:00:01:01"),
    ("10.0.2.0/24", 2, "02:00:00:00:02:fe", "02:00:00:00:02:01"),
    ("10.0.0.0/8", 3, "02:00:00:00:03:fe", "02:00:00:00:03:01"),
]

app = App()


@app.on("join")
def add_routes(event):
    if event.dpid != ROUTER:
        app.log(f"switch {event.dpid} is not the router")
        return
    app.add_flow(event.dpid, Match(dl_type=0x0806), [Output(Port.FLOOD)], priority=1)
    for network, port, own, station in ROUTES:
        match = Match(dl_type=0x0800, nw_dst=network)
        length = int(network.split("/")[1])
        app.add_flow(event.dpid, match, [SetDlSrc(own), SetDlDst(station), Output(port)], priority=100 + length)
    app.log(f"{len(ROUTES)} routes are in")


@app.on("port_status")
def tell_broken_routes(event):
    for network, port, _, _ in ROUTES:
        if event.dpid == ROUTER and port == event.port.port_no and event.port.state & PortState.LINK_DOWN:
            app.log(f"the link to {network} is down")


if __name__ == "__main__":
    app.run()
