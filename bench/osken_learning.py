"""The learning switch of sdk/python/examples/learning_by_additions.py for os-ken, for bench/live.py to compare with."""

from os_ken.base import app_manager
from os_ken.controller import ofp_event
from os_ken.controller.handler import CONFIG_DISPATCHER, MAIN_DISPATCHER, set_ev_cls
from os_ken.lib.mac import haddr_to_bin
from os_ken.ofproto import ofproto_v1_0


class Learning(app_manager.OSKenApp):
    OFP_VERSIONS = [ofproto_v1_0.OFP_VERSION]

    def __init__(self, *args, **kwargs):
        super().__init__(*args, **kwargs)
        self.known = {}

    @set_ev_cls(ofp_event.EventOFPSwitchFeatures, CONFIG_DISPATCHER)
    def joined(self, ev):
        path = ev.msg.datapath
        self.known[path.id] = set()
        tell = [path.ofproto_parser.OFPActionOutput(path.ofproto.OFPP_FLOOD), path.ofproto_parser.OFPActionOutput(path.ofproto.OFPP_CONTROLLER)]
        self.add(path, path.ofproto_parser.OFPMatch(), tell, 0, 0)
        self.add(path, path.ofproto_parser.OFPMatch(dl_type=0x0806), tell, 20, 0)

    @set_ev_cls(ofp_event.EventOFPPacketIn, MAIN_DISPATCHER)
    def packet_in(self, ev):
        path, data = ev.msg.datapath, ev.msg.data
        source = ":".join("%02x" % it for it in data[6:12])
        known = self.known.setdefault(path.id, set())
        if source in known:
            return
        match = path.ofproto_parser.OFPMatch(dl_dst=haddr_to_bin(source))
        self.add(path, match, [path.ofproto_parser.OFPActionOutput(ev.msg.in_port)], 10, 300)
        known.add(source)

    def add(self, path, match, actions, priority, seconds):
        path.send_msg(
            path.ofproto_parser.OFPFlowMod(
                datapath=path,
                match=match,
                cookie=0,
                command=path.ofproto.OFPFC_ADD,
                hard_timeout=seconds,
                priority=priority,
                flags=path.ofproto.OFPFF_SEND_FLOW_REM,
                actions=actions,
            )
        )
