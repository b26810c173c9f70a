package cf.store;

import java.io.BufferedInputStream;
import java.io.ByteArrayOutputStream;
import java.io.Closeable;
import java.io.EOFException;
import java.io.IOException;
import java.io.InputStream;
import java.io.OutputStream;
import java.net.InetSocketAddress;
import java.net.Socket;
import java.net.SocketTimeoutException;
import java.nio.charset.StandardCharsets;
import java.util.Locale;

/**
 * A connection by HTTP/1.1, on which one call follows another. Nothing is sent twice, where Java's own client sends a call again whose connection was
 * cut. One thread at a time has it. Once a call has thrown, it is closed.
 */
final class Http implements Closeable {
    private static final int LONGEST_LINE = 16_384;

    private final Socket socket = new Socket();
    private final InputStream in;
    private final String host;
    private final int millis;
    /** How long the body of the last answer is, or -1 where it comes in chunks. */
    private int length;

    /** Connects. A member that is silent for so many milliseconds is given up, then and at each call. */
    Http(String host, int port, int millis) throws IOException {
        this.host = host + ":" + port;
        this.millis = millis;
        try {
            socket.connect(new InetSocketAddress(host, port), millis);
            socket.setSoTimeout(millis);
            socket.setTcpNoDelay(true);
            in = new BufferedInputStream(socket.getInputStream());
        } catch (IOException | RuntimeException fault) {
            socket.close();
            throw fault;
        }
    }

    /** Sends a call, and gives the status of its answer, whose body is read by {@link #body}. */
    int post(String path, byte[] body) throws IOException {
        String head = "POST " + path + " HTTP/1.1\r\nHost: " + host + "\r\nContent-Type: application/json\r\nContent-Length: " + body.length
                + "\r\n\r\n";
        byte[] start = head.getBytes(StandardCharsets.ISO_8859_1), all = new byte[start.length + body.length];
        System.arraycopy(start, 0, all, 0, start.length);
        System.arraycopy(body, 0, all, start.length, body.length);
        OutputStream out = socket.getOutputStream();
        out.write(all);
        String[] status = line().split(" ", 3);
        if (status.length < 2 || !status[0].startsWith("HTTP/1.") || !status[1].matches("[0-9]{3}")) {
            throw new IOException("no answer of HTTP");
        }
        length = 0;
        for (String line = line(); !line.isEmpty(); line = line()) {
            String[] field = line.toLowerCase(Locale.ROOT).split(": *", 2);
            if (field[0].equals("content-length")) {
                length = number(field[1], 10);
            } else if (field[0].equals("transfer-encoding")) {
                length = -1;
            }
        }
        return Integer.parseInt(status[1]);
    }

    /** The whole body of the last answer. */
    byte[] body() throws IOException {
        ByteArrayOutputStream read = new ByteArrayOutputStream();
        if (length >= 0) {
            readBytes(length, read);
            return read.toByteArray();
        }
        while (chunk(read)) {
            // The next one.
        }
        return read.toByteArray();
    }

    /** Reads a chunk of the last answer's body behind what was read, and says whether there was one. */
    boolean chunk(ByteArrayOutputStream read) throws IOException {
        int many = number(line().split(";", 2)[0].trim(), 16);
        readBytes(many, read);
        boolean isLast = many == 0;
        while (!line().isEmpty() && isLast) {
            // A field behind the last chunk.
        }
        return !isLast;
    }

    /** Waits so long at most until something more comes of an answer that goes on, and drops all that has come. Whether something has. */
    boolean awaitInput(long wait) throws IOException {
        socket.setSoTimeout((int) Math.max(1, Math.min(wait, millis)));
        try {
            byte[] dropped = new byte[4096];
            do {
                if (in.read(dropped) < 0) {
                    throw new EOFException("the answer ended");
                }
            } while (in.available() > 0);
            return true;
        } catch (SocketTimeoutException nothing) {
            return false;
        }
    }

    private void readBytes(int many, ByteArrayOutputStream read) throws IOException {
        byte[] some = new byte[Math.min(many, 8192)];
        for (int left = many; left > 0;) {
            int got = in.read(some, 0, Math.min(left, some.length));
            if (got < 0) {
                throw new EOFException("the answer was cut");
            }
            read.write(some, 0, got);
            left -= got;
        }
    }

    private String line() throws IOException {
        StringBuilder line = new StringBuilder();
        for (int next = in.read(); next != '\n'; next = in.read()) {
            if (next < 0 || line.length() == LONGEST_LINE) {
                throw new EOFException("the answer was cut");
            }
            line.append((char) next);
        }
        int end = line.length();
        return line.substring(0, end > 0 && line.charAt(end - 1) == '\r' ? end - 1 : end);
    }

    private static int number(String text, int base) throws IOException {
        try {
            int number = Integer.parseInt(text, base);
            if (number >= 0) {
                return number;
            }
        } catch (NumberFormatException none) {
            // It is told below.
        }
        throw new IOException("no length: " + text);
    }

    @Override
    public void close() {
        try {
            socket.close();
        } catch (IOException gone) {
            // It is gone anyway.
        }
    }
}
