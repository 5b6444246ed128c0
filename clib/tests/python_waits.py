# Waits of Python. On saw.board the input rises by a volt each 10 ms. It is read four times, and after each reading a wait
# takes 10 ms, so the readings are -5, -4, -3 and -2 V. A wait whose end is there already takes no time: all four are -5 V.
# The readings start at a multiple of 100 ms, and each call takes some microseconds.
import asyncio
import ctypes
import os
import queue
import sched
import select
import socket
import struct
import threading
import time

from comedi import comedi

SECONDS = 0.01
device = comedi.comedi_open("/dev/comedi0")
start = time.monotonic()
libc = ctypes.CDLL(None)
near, far = socket.socketpair()
near.settimeout(SECONDS)


def volts():
    code = comedi.comedi_data_read(device, 0, 0, 0, comedi.AREF_GROUND)[1]
    return "%.0f" % (-10 + 20 * code / 65535)


def read_with(name, wait):
    readings = []
    for _ in range(4):
        readings.append(volts())
        wait()
    print(name + ":", *readings)
    time.sleep(0.1 - (time.monotonic() - start) % 0.1)


async def read_with_asyncio():
    readings = []
    for _ in range(4):
        readings.append(volts())
        await asyncio.sleep(SECONDS)
    print("asyncio.sleep:", *readings)


async def read_beside_a_thread():
    """The loop's timer goes on while a thread sleeps, and the thread's end wakes the loop."""
    ticker = asyncio.create_task(read_with_asyncio())
    await asyncio.get_running_loop().run_in_executor(None, time.sleep, 2.2 * SECONDS)
    print("a thread's end:", volts())
    await ticker


def condition_wait():
    condition = threading.Condition()
    with condition:
        condition.wait(SECONDS)


def queue_get():
    try:
        queue.Queue().get(timeout=SECONDS)
    except queue.Empty:
        pass


def timer():
    started = threading.Timer(SECONDS, lambda: None)
    started.start()
    started.join()


def join():
    """A thread that sleeps longer than it is waited for, and its rest."""
    sleeper = threading.Thread(target=time.sleep, args=(1.3 * SECONDS,))
    sleeper.start()
    sleeper.join(SECONDS)
    readings.append(volts())
    sleeper.join()


def socket_timeout():
    try:
        near.recv(1)
    except TimeoutError:
        pass


def scheduler():
    todo = sched.scheduler()
    todo.enter(SECONDS, 1, lambda: None)
    todo.run()


def timer_file():
    timer = libc.timerfd_create(1, 0)
    libc.timerfd_settime(timer, 0, struct.pack("4q", 0, 0, 0, int(SECONDS * 1e9)), None)
    os.read(timer, 8)
    os.close(timer)


def loop_of(clock):
    def loop():
        end = clock() + SECONDS
        while clock() < end:
            pass
    return loop


def set_by_a_thread():
    event = threading.Event()
    threading.Thread(target=event.set).start()
    event.wait(10)


def put_by_a_thread():
    items = queue.Queue()
    threading.Thread(target=items.put, args=(1,)).start()
    items.get(timeout=10)


poll, epoll = select.poll(), select.epoll()
poll.register(near, select.POLLIN)
epoll.register(near, select.EPOLLIN)
readings = []
read_with("time.sleep", lambda: time.sleep(SECONDS))
read_with("Event.wait", lambda: threading.Event().wait(SECONDS))
read_with("Condition.wait", condition_wait)
read_with("Semaphore.acquire", lambda: threading.Semaphore(0).acquire(timeout=SECONDS))
read_with("queue.get", queue_get)
read_with("Timer", timer)
read_with("sched", scheduler)
read_with("select of nothing", lambda: select.select([], [], [], SECONDS))
read_with("select", lambda: select.select([near], [], [], SECONDS))
read_with("poll", lambda: poll.poll(1000 * SECONDS))
read_with("epoll", lambda: epoll.poll(SECONDS))
read_with("a socket's timeout", socket_timeout)
read_with("a timer's file", timer_file)
for clock in (time.time, time.monotonic, time.perf_counter):
    read_with("a loop on " + clock.__name__, loop_of(clock))
asyncio.run(read_with_asyncio())
time.sleep(0.1 - (time.monotonic() - start) % 0.1)
asyncio.run(read_beside_a_thread())
time.sleep(0.1 - (time.monotonic() - start) % 0.1)
join()
print("join:", *readings, volts())
time.sleep(0.1 - (time.monotonic() - start) % 0.1)
read_with("Event.wait that a thread ends", set_by_a_thread)
read_with("queue.get that a thread ends", put_by_a_thread)
far.send(b"x")
read_with("poll with a byte", lambda: poll.poll(1000))
comedi.comedi_close(device)
