package cf.service;

import static cf.service.Checks.is;
import static cf.service.Checks.thrown;

import cf.internal.Native;
import java.io.InputStream;
import java.lang.ref.WeakReference;
import java.lang.reflect.InvocationTargetException;
import java.net.URL;
import java.net.URLClassLoader;
import java.nio.file.Files;
import java.nio.file.Path;
import java.nio.file.StandardCopyOption;
import java.util.ArrayList;
import java.util.List;
import java.util.concurrent.TimeUnit;

/** Class loaders, as containers of web applications and plugins have them: each has classes and a library of its own, and can go. */
final class LoaderTest {
    private LoaderTest() {}

    /** What a loader's application does. */
    public static final class App {
        private App() {}

        /** Leaves requests open, cores to be used again, and a flow's plan. */
        public static int use(int requests, boolean timers) throws Exception {
            Service service = new Service(Runnable::run);
            Flow flow = new Flow("loaded");
            Flow.Step<Integer> first = flow.promise(), last = first.thenApply(x -> x + 1);
            List<Request> open = new ArrayList<>();
            int sum = 0;
            for (int k = 0; k < requests; k++) {
                Request request = service.request("loaded");
                request.promise(); // So it is never over, and keeps its core.
                open.add(request);
                Stage<Integer> stage = request.completedFuture(1).thenApply(x -> x + 1);
                if (timers) {
                    stage = request.<Integer>promise().completeOnTimeout(2, 1, TimeUnit.MILLISECONDS);
                    request.promise().orTimeout(1, TimeUnit.HOURS).cancel(true);
                }
                sum += stage.get(20, TimeUnit.SECONDS);
                if (k % 100 == 0) {
                    try (Request started = service.start(flow, 1)) {
                        sum += started.stage(last).join() - started.history().events() - started.history().toString().length() / 1000;
                    }
                    request.close();
                }
            }
            return sum;
        }
    }

    private static URLClassLoader loader() throws Exception {
        List<URL> path = new ArrayList<>();
        for (Class<?> each : new Class<?>[] {Service.class, App.class}) {
            path.add(each.getProtectionDomain().getCodeSource().getLocation());
        }
        return new URLClassLoader(path.toArray(new URL[0]), ClassLoader.getSystemClassLoader().getParent());
    }

    private static void use(URLClassLoader loader, int requests, boolean timers) throws Exception {
        Class<?> app = loader.loadClass("cf.service.LoaderTest$App");
        is(app != App.class, true);
        try {
            is((int) app.getMethod("use", int.class, boolean.class).invoke(null, requests, timers) >= 2 * requests - requests / 10 - 2, true);
        } catch (InvocationTargetException thrown) {
            if (thrown.getCause() instanceof Error) {
                throw (Error) thrown.getCause();
            }
            throw thrown;
        }
    }

    private static WeakReference<ClassLoader> used(int requests, boolean timers) throws Exception {
        try (URLClassLoader loader = loader()) {
            use(loader, requests, timers);
            return new WeakReference<>(loader);
        }
    }

    private static void gone(List<WeakReference<ClassLoader>> loaders) throws Exception {
        for (WeakReference<ClassLoader> loader : loaders) {
            Checks.until(() -> {
                System.gc();
                return loader.get() == null;
            });
        }
    }

    /** A loader that was used and dropped goes, also where the JVM has recorded something, and takes its memory outside the heap along. */
    static void unloaded() throws Exception {
        List<WeakReference<ClassLoader>> loaders = new ArrayList<>();
        loaders.add(used(200, false));
        loaders.add(used(200, true));
        gone(loaders);
        loaders.clear();
        long before = Checks.resident();
        for (int k = 0; k < 6; k++) {
            loaders.add(used(3000, false));
            gone(loaders);
        }
        long after = Checks.resident();
        if (Boolean.getBoolean("test.times") || after - before >= 60) {
            System.out.println("           resident before and after 6 loaders of 3,000 requests: " + before + " and " + after + " MB");
        }
        is(after - before < 60, true);
    }

    /** The library that the jar has, as a file. */
    private static Path library() throws Exception {
        Path file = Files.createTempFile("named", ".so");
        try (InputStream within = Native.class.getResourceAsStream("native/linux-x86_64/libcf_java.so")) {
            Files.copy(within, file, StandardCopyOption.REPLACE_EXISTING);
        }
        return file;
    }

    private static void withProperty(String name, String value, Step step) throws Exception {
        String before = System.setProperty(name, value);
        try {
            step.run();
        } finally {
            if (before == null) {
                System.clearProperty(name);
            } else {
                System.setProperty(name, before);
            }
        }
    }

    private interface Step {
        void run() throws Exception;
    }

    /** One class loader at a time has a file; the others get copies of it. */
    static void named() throws Exception {
        Path file = library();
        try (URLClassLoader one = loader(); URLClassLoader two = loader(); URLClassLoader three = loader()) {
            withProperty("cf.native", file.toString(), () -> {
                use(one, 3, false);
                use(two, 3, false);
                Files.delete(file); // A loader that has it needs the file no more.
                use(one, 3, false);
                use(two, 3, false);
                String told = thrown(UnsatisfiedLinkError.class, () -> use(three, 1, false)).getMessage();
                is(told.contains("there is no file " + file), true);
            });
        }
    }

    /** The message says what is missing, where it is looked for, and what to do. */
    static void missing() throws Exception {
        Path other = Files.createTempFile("other", ".so");
        Files.write(other, new byte[8192]);
        try (URLClassLoader loader = loader()) {
            withProperty("cf.native", other.toString(), () -> {
                String told = thrown(UnsatisfiedLinkError.class, () -> use(loader, 1, false)).getMessage();
                is(told.contains(other.toString()) && told.contains("x86-64 Linux with glibc") && told.contains("-Dcf.native=FILE"), true);
            });
        }
        Files.delete(other);
        try (URLClassLoader loader = loader()) {
            withProperty("os.arch", "vax", () -> {
                String told = thrown(UnsatisfiedLinkError.class, () -> use(loader, 1, false)).getMessage();
                is(told.contains("the jar has no library for linux-vax") && told.contains("java.library.path") && told.contains("-Dcf.native=FILE"), true);
            });
        }
    }
}
