"""A Modbus TCP device for tests, pymodbus's own server: `modbus_device.py PORT`. Addresses 0 to 99 are there, all 0 at first."""

from __future__ import annotations

import asyncio
import sys

from pymodbus.datastore import (
    ModbusSequentialDataBlock,
    ModbusServerContext,
    ModbusSlaveContext,
)
from pymodbus.server import StartAsyncTcpServer


async def main(port: int) -> None:
    tables = {name: ModbusSequentialDataBlock(0, [0] * 100) for name in ("hr", "co")}
    tables["ir"] = ModbusSequentialDataBlock(0, list(range(1000, 1100)))
    tables["di"] = ModbusSequentialDataBlock(0, [0, 1] * 50)
    device = ModbusSlaveContext(**tables, zero_mode=True)
    await StartAsyncTcpServer(
        context=ModbusServerContext(device, single=True),
        address=("127.0.0.1", port),
        allow_reuse_address=True,
    )


if __name__ == "__main__":
    asyncio.run(main(int(sys.argv[1])))
