"""A folder like the kit's toolchain, with another clang."""
import os


def stand_in(kit: str, room: str, script: str) -> str:
    """Makes the folder toolchain in a room, whose clang is this script: {clang} in it is the kit's
    own, and {room} the room."""
    made = f"{room}/toolchain"
    os.makedirs(f"{made}/bin")
    for at in ("", "bin/"):
        for name in os.listdir(f"{kit}/toolchain/{at}"):
            if name not in ("bin", "clang"):
                os.symlink(f"{kit}/toolchain/{at}{name}", f"{made}/{at}{name}")
    with open(f"{made}/bin/clang", "w", encoding="utf-8") as file:
        file.write(script.format(room=room, clang=f"{kit}/toolchain/bin/clang"))
    os.chmod(f"{made}/bin/clang", 0o755)
    return made
