// A client over comedilib's bindings for C++, with a stream of the device. On wide.board sample k comes at 3,000 + k *
// 1,000,000 ns and has the code k; comedi_open makes two calls of 1,000 ns, and each further call takes as much.
#include <comedi_iostream.hpp>
#include <comedilib.hpp>
#include <cstdio>

static void give_command(const comedi::device &device, unsigned count)
{
	unsigned list[1] = { CR_PACK(0, 0, AREF_GROUND) };
	comedi_cmd command = {};
	comedi::subdevice(device, 0).get_cmd_generic_timed(&command, 1, 1000000);
	command.chanlist = list;
	command.chanlist_len = 1;
	command.stop_src = TRIG_COUNT;
	command.stop_arg = count;
	std::printf("test: %d\n", device.command_test(&command));
	device.command(&command);
}

// The stream reads through the C library's buffer: all samples at once, and then the end.
static void read_stream(const comedi::device &device)
{
	comedi::istream stream(device, 16);
	sampl_t samples[8];
	stream.read(reinterpret_cast<char *>(samples), sizeof samples);
	for (long i = 0; i < stream.gcount() / static_cast<long>(sizeof *samples); i++)
		std::printf("sample: %u\n", samples[i]);
}

int main()
{
	comedi::device device("/dev/comedi0");
	comedi::subdevice input(device, 0), output(device, 1), lines(device, 2);
	std::printf("%s, %u subdevices\n", device.board_name().c_str(), device.n_subdevices());
	std::printf("%u channels of %u\n", input.n_channels(), input.max_data());
	give_command(device, 5);
	read_stream(device);
	std::printf("value: %u\n", input.data_read(1, 0, AREF_GROUND));
	output.data_write(0, 0, AREF_GROUND, 9);
	std::printf("output: %u\n", output.data_read(0, 0, AREF_GROUND));
	lines.dio_config(3, COMEDI_OUTPUT);
	unsigned bits = 8;
	lines.dio_bitfield(8, &bits);
	std::printf("lines: %u\n", bits);
	output.lock();
	output.unlock();
	try {
		comedi::subdevice(device, 3);
	} catch (const std::invalid_argument &) {
		std::printf("there is no subdevice 3\n");
	}
	return 0;
}
