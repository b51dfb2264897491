"""Document 01's drill, record by record on a machine, and in one call: python3 examples/drill.py [the shared library]"""
import sys
from pathlib import Path

sys.path.insert(0, str(Path(__file__).resolve().parent.parent / "python"))
import trainer

trainer.open_library(sys.argv[1] if len(sys.argv) > 1 else None)
tape = bytes.fromhex("01004809 00014801 01480A00 00C80400 01C80402 0102")

machine = trainer.Machine()
text, calls, orders = "", 0, 0
for record in trainer.read_tape(tape):
    if isinstance(record, trainer.Load):
        reply = machine.load(*record)
        text += f"load {record.unit} {record.address} {reply.value} orders {len(reply.orders)}\n"
    elif isinstance(record, trainer.Store):
        reply = machine.store(*record)
        text += f"store {record.unit} {record.address} {record.value} orders {len(reply.orders)}\n"
    elif isinstance(record, trainer.Flush):
        reply = machine.flush(*record)
        text += f"flush {record.unit} {record.block} orders {len(reply.orders)}\n"
    else:
        continue
    calls, orders = calls + 1, orders + len(reply.orders)
text += f"total {calls} calls {orders} orders\n"

assert text == trainer.drill(tape)
print(text, end="")
