# A client in Python, by Debian's module: on wide.board it reads five samples, which have the codes 0 to 4, and a value
# of channel 1, which is 7. The module has no read of its own, so it reads the descriptor.
import os
import struct

from comedi import comedi

device = comedi.comedi_open("/dev/comedi0")
command = comedi.comedi_cmd_struct()
entries = comedi.chanlist(1)
entries[0] = comedi.cr_pack(0, 0, comedi.AREF_GROUND)
command.subdev = 0
command.start_src = comedi.TRIG_NOW
command.scan_begin_src = comedi.TRIG_TIMER
command.scan_begin_arg = 1000000
command.convert_src = comedi.TRIG_NOW
command.scan_end_src = comedi.TRIG_COUNT
command.scan_end_arg = 1
command.stop_src = comedi.TRIG_COUNT
command.stop_arg = 5
command.chanlist = entries
command.chanlist_len = 1
print("command:", comedi.comedi_command(device, command))
while True:
    got = os.read(comedi.comedi_fileno(device), 4)
    print("read:", *struct.unpack("%dH" % (len(got) // 2), got))
    if not got:
        break
print("value:", *comedi.comedi_data_read(device, 0, 1, 0, comedi.AREF_GROUND))
comedi.comedi_close(device)
