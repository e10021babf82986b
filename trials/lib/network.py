"""Network namespaces with a link between them. Needs root, and the Debian package iproute2."""

import os
import subprocess

NEAR, FAR = "10.23.0.1", "10.23.0.2"


def ip(*words):
    subprocess.run(["ip", *words], check=True)


class Link:
    """Two network namespaces: `near` has the address NEAR at near0, `far` has FAR at far0."""

    def __init__(self):
        self.near, self.far = f"satip-near-{os.getpid()}", f"satip-far-{os.getpid()}"
        for space in (self.near, self.far):
            ip("netns", "add", space)
        peer = ("peer", "name", "far0", "netns", self.far)
        ip("-n", self.near, "link", "add", "near0", "type", "veth", *peer)
        for space, device, address in ((self.near, "near0", NEAR), (self.far, "far0", FAR)):
            ip("-n", space, "addr", "add", f"{address}/24", "dev", device)
            ip("-n", space, "link", "set", device, "up")
            ip("-n", space, "link", "set", "lo", "up")

    def __enter__(self):
        return self

    def __exit__(self, *_):
        self.close()

    def inside(self, space):
        """The words before a command that runs in a namespace."""
        return ("ip", "netns", "exec", space)

    def close(self):
        for space in (self.near, self.far):
            subprocess.run(["ip", "netns", "del", space], check=False)
