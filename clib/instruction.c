/*
 * Instructions: each is one line of the session, or a few at the same time.
 */
#define _GNU_SOURCE
#include "device.h"
#include "kernel.h"
#include "server.h"
#include <errno.h>
#include <stdio.h>
#include <string.h>

/* as the kernel: no longer waits */
#define MOST_WAIT 100000
#define MOST_INSTRUCTIONS 65536
#define BITS_OF_A_WORD 32
/* what the kernel has and comedilib's header hasn't: INSN_DEVICE_CONFIG, and the number of its question for routes */
#define DEVICE_CONFIG (INSN_CONFIG | INSN_MASK_SPECIAL)
#define GET_ROUTES 3

/* A subdevice that a line can name. There are 16 at most, so all above 255 are as little there as 255. */
static unsigned number_of(const comedi_insn *instruction)
{
	return instruction->subdev < 255 ? instruction->subdev : 255;
}

static int read_line(int file, unsigned number, unsigned specification, unsigned count, unsigned *data)
{
	uint64_t numbers[1 + READINGS_OF_A_LINE];
	int result = line_of_session("insn %d %u read %s %u", file, number, entry_text(specification), count);
	if (result)
		return result;
	if (answer_numbers(numbers, 1 + count) != 1 + (int)count)
		return -EIO;
	for (unsigned i = 0; i < count; i++)
		data[i] = numbers[1 + i];
	return 0;
}

static int write_line(int file, unsigned number, unsigned specification, unsigned count, const unsigned *data)
{
	char start[128];
	snprintf(start, sizeof start, "insn %d %u write %s", file, number, entry_text(specification));
	return line_of_values(start, data, count);
}

static int do_read(int file, const comedi_insn *instruction, unsigned *data)
{
	unsigned unused;
	if (!instruction->n)
		return read_line(file, number_of(instruction), instruction->chanspec, 1, &unused);
	for (unsigned done = 0; done < instruction->n; done += READINGS_OF_A_LINE) {
		unsigned count = instruction->n - done < READINGS_OF_A_LINE ? instruction->n - done : READINGS_OF_A_LINE;
		int result = read_line(file, number_of(instruction), instruction->chanspec, count, data + done);
		if (result)
			return result;
	}
	return instruction->n;
}

static int do_write(int file, const comedi_insn *instruction, const unsigned *data)
{
	unsigned unused;
	/* an input takes no values, and an empty list of them neither: but first it is asked who is busy or has the lock */
	if (!instruction->n) {
		int result = read_line(file, number_of(instruction), instruction->chanspec, 1, &unused);
		int takes_none = instruction->subdev < device->subdevices && board_is_input(&device->subdevice[instruction->subdev]);
		return !result && takes_none ? -EINVAL : result;
	}
	for (unsigned done = 0; done < instruction->n; done += READINGS_OF_A_LINE) {
		unsigned count = instruction->n - done < READINGS_OF_A_LINE ? instruction->n - done : READINGS_OF_A_LINE;
		int result = write_line(file, number_of(instruction), instruction->chanspec, count, data + done);
		if (result)
			return result;
	}
	return instruction->n;
}

/* Bits from a channel on that a line can't name: one channel after another. What is no output keeps its value. */
static int do_upper_bits(int file, const comedi_insn *instruction, unsigned *data)
{
	unsigned number = instruction->subdev, first = CR_CHAN(instruction->chanspec), state = 0;
	/* bits of none: whether the subdevice has any */
	int none = line_of_session("insn %d %u bits 0 0", file, number);
	if (none)
		return none;
	for (unsigned i = 0; i < BITS_OF_A_WORD && first + i < device->subdevice[number].channels; i++) {
		unsigned bit = data[1] >> i & 1;
		int result = data[0] >> i & 1 ? write_line(file, number, first + i, 1, &bit) : 0;
		if (result && result != -EINVAL)
			return result;
		result = read_line(file, number, first + i, 1, &bit);
		if (result)
			return result;
		state |= (bit & 1) << i;
	}
	data[1] = state;
	return 2;
}

/* Bits: the kernel shifts them by the base channel, up to 32 channels. */
static int do_bits(int file, const comedi_insn *instruction, unsigned *data)
{
	unsigned number = number_of(instruction), first = CR_CHAN(instruction->chanspec), unused;
	uint64_t numbers[3];
	int result = instruction->chanspec || instruction->n != 2 ? read_line(file, number, instruction->chanspec, 1, &unused) : 0;
	if (result)
		return result;
	if (instruction->n != 2)
		return -EINVAL;
	if (first && device->subdevice[number].channels > BITS_OF_A_WORD)
		return do_upper_bits(file, instruction, data);
	result = line_of_session("insn %d %u bits %u %u", file, number, first < 32 ? data[0] << first : 0, first < 32 ? data[1] << first : 0);
	if (result)
		return result;
	if (answer_numbers(numbers, 3) != 3)
		return -EIO;
	data[1] = numbers[2] >> first;
	return 2;
}

/* The direction of a line: an output takes back the value that it keeps, and an input takes none. */
static int query_direction(int file, const comedi_insn *instruction, unsigned *data)
{
	unsigned number = instruction->subdev, value;
	if (number >= device->subdevices || device->subdevice[number].kind != COMEDI_SUBD_DIO)
		return -EINVAL;
	int result = read_line(file, number, instruction->chanspec, 1, &value);
	if (result)
		return result;
	result = write_line(file, number, instruction->chanspec, 1, &value);
	if (result && result != -EINVAL)
		return result;
	data[1] = result ? COMEDI_INPUT : COMEDI_OUTPUT;
	return 2;
}

/* Configurations: directions of lines. For all others there is no line, and a number that none has is asked. */
static int do_config(int file, const comedi_insn *instruction, unsigned *data)
{
	if (instruction->n == 2 && data[0] == INSN_CONFIG_DIO_QUERY)
		return query_direction(file, instruction, data);
	unsigned what = instruction->n == 1 ? data[0] : UINT32_MAX;
	int result = line_of_session("insn %d %u config %s %u", file, number_of(instruction), entry_text(instruction->chanspec), what);
	return result ? result : 1;
}

static int do_time_of_day(int file, const comedi_insn *instruction, unsigned *data)
{
	uint64_t numbers[3];
	if (instruction->n != 2)
		return -EINVAL;
	int result = line_of_session("insn %d 0 gtod", file);
	if (result)
		return result;
	if (answer_numbers(numbers, 3) != 3)
		return -EIO;
	data[0] = numbers[1];
	data[1] = numbers[2];
	return 2;
}

static int do_wait(const comedi_insn *instruction, const unsigned *data)
{
	if (instruction->n != 1 || data[0] >= MOST_WAIT)
		return -EINVAL;
	time_spend(data[0]);
	return 1;
}

/* The kernel lets any file that is open give the trigger: it is given in the name of the one that called the command. */
static int do_trigger(int file, const comedi_insn *instruction, const unsigned *data)
{
	if (instruction->n != 1)
		return -EINVAL;
	unsigned number = number_of(instruction);
	int runner = board_runner(number);
	int result = line_of_session("insn %d %u inttrig %u", runner == NO_FILE ? file : runner, number, data[0]);
	if (!result)
		device_changed();
	/* if no command waits for a trigger, the kernel doesn't look at the lock */
	if (result == -EACCES && runner == NO_FILE)
		return -EAGAIN;
	return result ? kernel_result(CALL_TRIGGER, result) : 1;
}

/* Answers questions for routes between lines, of which no board has any. For a driver without them the kernel answers that there
 * are 0, and refuses to set one. */
static int do_routes(const comedi_insn *instruction, unsigned *data)
{
	if (instruction->n < 2 || data[0] != GET_ROUTES)
		return -EINVAL;
	data[1] = 0;
	return instruction->n;
}

/* An instruction whose data are here. */
int instruction_do(int file, comedi_insn *instruction, unsigned *data)
{
	int result;
	switch (instruction->insn) {
	case INSN_GTOD:
		return do_time_of_day(file, instruction, data);
	case INSN_WAIT:
		return do_wait(instruction, data);
	case INSN_INTTRIG:
		return do_trigger(file, instruction, data);
	case DEVICE_CONFIG:
		return do_routes(instruction, data);
	case INSN_READ:
		result = do_read(file, instruction, data);
		break;
	case INSN_WRITE:
		result = do_write(file, instruction, data);
		break;
	case INSN_BITS:
		result = do_bits(file, instruction, data);
		break;
	case INSN_CONFIG:
		result = do_config(file, instruction, data);
		break;
	default:
		return -EINVAL;
	}
	/* the kernel looks at the entry before it asks whether the subdevice is busy */
	if (result == -EBUSY && kernel_refuses_entries(&device->subdevice[instruction->subdev], &instruction->chanspec, 1))
		return -EINVAL;
	return kernel_result(CALL_INSTRUCTION, result);
}

/* An instruction of the client, with its data taken from it and given back. */
int instruction_one(int file, const comedi_insn *asked)
{
	static unsigned data[MOST_DATA];
	comedi_insn instruction = *asked;
	if (instruction.n > MOST_DATA)
		return -EINVAL;
	memset(data, 0, (instruction.n < 2 ? 2 : instruction.n) * sizeof *data);
	if (instruction.insn & INSN_MASK_WRITE && copy_in(data, instruction.data, instruction.n * sizeof *data))
		return -EFAULT;
	int result = instruction_do(file, &instruction, data);
	if (result < 0)
		return result;
	if (instruction.insn & INSN_MASK_READ && copy_out(instruction.data, data, instruction.n * sizeof *data))
		return -EFAULT;
	return result;
}

int instruction_list(int file, const comedi_insnlist *list)
{
	comedi_insn instruction;
	if (list->n_insns > MOST_INSTRUCTIONS)
		return -EINVAL;
	for (unsigned i = 0; i < list->n_insns; i++)
		if (copy_in(&instruction, list->insns + i, sizeof instruction))
			return -EFAULT;
		else if (instruction.n > MOST_DATA)
			return -EINVAL;
	for (unsigned i = 0; i < list->n_insns; i++) {
		if (copy_in(&instruction, list->insns + i, sizeof instruction))
			return -EFAULT;
		int result = instruction_one(file, &instruction);
		if (result < 0)
			return result;
	}
	return list->n_insns;
}
