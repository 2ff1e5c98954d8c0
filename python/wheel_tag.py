"""Makes a wheel one for the machines that its program runs on, where it has one."""

import os
from typing import Any

from hatchling.builders.hooks.plugin.interface import BuildHookInterface


class WheelTag(BuildHookInterface):  # type: ignore[misc]
    """Without SHACL_KEEP_PLATFORM the wheel is one of Python alone, which looks for the program elsewhere."""

    def initialize(self, version: str, build_data: dict[str, Any]) -> None:
        platform = os.environ.get("SHACL_KEEP_PLATFORM")
        if platform:
            build_data["pure_python"] = False
            build_data["tag"] = f"py3-none-{platform}"
