package cf.tck;

import cf.service.Replies;
import cf.service.Request;
import java.io.PrintWriter;
import java.nio.file.Files;
import java.nio.file.Path;
import junit.framework.AssertionFailedError;
import junit.framework.Test;
import junit.framework.TestCase;
import junit.framework.TestListener;
import junit.framework.TestResult;
import junit.framework.TestSuite;

/**
 * Runs an adapted JUnit 3 class: a line for each test that fails, and the sums. The account, the script and the report of each request go
 * to a file, a line each, as conformance/clients/java-service judges them, once they are what a machine answers.
 */
public final class Run {
    private static int failed, requests, events, stages, furthest;

    public static void main(String[] args) throws Exception {
        String only = args.length > 2 ? args[2] : "";
        TestSuite all = new TestSuite(Class.forName(args[0]));
        TestResult result = new TestResult();
        try (PrintWriter accounts = args.length > 1 && !args[1].equals("-") ? new PrintWriter(Files.newBufferedWriter(Path.of(args[1]))) : null) {
            result.addListener(new TestListener() {
                @Override
                public void startTest(Test test) {
                    Ambient.begin(test.toString());
                }

                @Override
                public void endTest(Test test) {
                    for (Request request : Ambient.made()) {
                        var history = request.history();
                        requests++;
                        events += history.events();
                        stages += history.stages();
                        furthest = Math.max(furthest, history.stages());
                        if (accounts != null && history.events() > 0) {
                            Replies.compare(history);
                            accounts.println(history.account() + "\t" + history.script() + "\t" + history.report().replace('\n', '|'));
                        }
                        request.close();
                    }
                }

                @Override
                public void addError(Test test, Throwable error) {
                    tell(test, error);
                }

                @Override
                public void addFailure(Test test, AssertionFailedError error) {
                    tell(test, error);
                }
            });
            long began = System.nanoTime();
            for (int k = 0; k < all.testCount(); k++) {
                Test test = all.testAt(k);
                if (test instanceof TestCase it && it.getName().contains(only)) {
                    it.run(result);
                }
            }
            System.out.printf("%s: %d tests, %d failed, %.1f s; %d requests, %d events, %d stages, at most %d in one%n", args[0],
                    result.runCount(), failed, (System.nanoTime() - began) / 1e9, requests, events, stages, furthest);
        }
        System.exit(0);
    }

    private static void tell(Test test, Throwable error) {
        failed++;
        System.out.println("FAILED " + test + ": " + error);
        int shown = 0;
        for (Throwable it = error; it != null && shown < 12; it = it.getCause()) {
            for (StackTraceElement at : it.getStackTrace()) {
                if (!at.getClassName().startsWith("junit.") && !at.getClassName().startsWith("java.") && shown++ < 12) {
                    System.out.println("    " + at);
                }
            }
        }
    }
}
