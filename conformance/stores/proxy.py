"""Cuts a connection, by chance, in place of the server's reply: proxy.py PORT HOST:PORT CHANCE. When it is told to end, it prints how many
it cut."""
import asyncio
import random
import signal
import sys

port, (host, to), chance = int(sys.argv[1]), sys.argv[2].split(":"), float(sys.argv[3])
cuts = 0


async def pass_on(reader, writer, cuts_by, other):
    global cuts
    try:
        while data := await reader.read(65536):
            if cuts_by and random.random() < cuts_by:
                cuts += 1
                other.transport.abort()
                break
            writer.write(data)
            await writer.drain()
    except OSError:
        pass
    finally:
        writer.close()


async def serve(reader, writer):
    try:
        their_reader, their_writer = await asyncio.open_connection(host, int(to))
    except OSError:
        writer.close()
        return
    await asyncio.gather(pass_on(reader, their_writer, 0, writer), pass_on(their_reader, writer, chance, writer))


async def main():
    loop, ends = asyncio.get_running_loop(), asyncio.Event()
    loop.add_signal_handler(signal.SIGTERM, ends.set)
    server = await asyncio.start_server(serve, "127.0.0.1", port)
    print("listens", flush=True)
    await ends.wait()
    server.close()
    print(cuts)


asyncio.run(main())
