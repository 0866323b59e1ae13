# Builds or finds the programs of a test, the gateway and the allocator, and prints the path of the allocator. Outside the proof.
import collections
import os
import subprocess

HERE = os.path.dirname(os.path.realpath(__file__))
ROOT = os.path.dirname(os.path.dirname(HERE))
Programs = collections.namedtuple("Programs", "gateway drf")


def find_programs():
    """Builds the gateway, or takes the one that GATEWAY names; the allocator is the released one, or the one that DRF names."""
    gateway = os.environ.get("GATEWAY") or os.path.join(ROOT, "serve", "out", "gateway")
    subprocess.run([os.path.join(ROOT, "serve", "build"), gateway], check=True)
    drf = os.environ.get("DRF") or os.path.join(ROOT, "dist", "drf-linux-x86_64")
    return Programs(gateway, os.path.realpath(drf))


if __name__ == "__main__":
    print(find_programs().drf)
