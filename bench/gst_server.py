#!/usr/bin/python3
"""Serves a recording by GStreamer's RTSP server, for a comparison: bench/serve.py starts it.

    bench/gst_server.py ADDRESS PORT RECORDING

All clients of rtsp://ADDRESS:PORT/ts share one reading of the recording, whose packets leave by its
clock, seven a datagram. Prints `ready` when it listens. Needs the Debian packages python3-gi,
gir1.2-gst-rtsp-server-1.0, gstreamer1.0-plugins-good and gstreamer1.0-plugins-bad, and so Debian's
own python3."""

import sys

import gi

gi.require_version("Gst", "1.0")
gi.require_version("GstRtspServer", "1.0")
from gi.repository import GLib, Gst, GstRtspServer

LAUNCH = "( filesrc location={} ! tsparse set-timestamps=true alignment=7 ! rtpmp2tpay name=pay0 pt=33 )"


def main():
    address, port, recording = sys.argv[1:]
    Gst.init(None)
    factory = GstRtspServer.RTSPMediaFactory()
    factory.set_launch(LAUNCH.format(recording))
    factory.set_shared(True)
    server = GstRtspServer.RTSPServer()
    server.set_address(address)
    server.set_service(port)
    server.get_mount_points().add_factory("/ts", factory)
    server.attach(None)
    print("ready", flush=True)
    GLib.MainLoop().run()


if __name__ == "__main__":
    main()
