package cf.service;

import static cf.service.Checks.INLINE;
import static cf.service.Checks.is;
import static cf.service.Checks.SERVICE;
import static cf.service.Checks.thrown;

import cf.internal.Words;
import java.io.IOException;
import java.nio.file.Files;
import java.nio.file.Paths;
import java.util.ArrayList;
import java.util.Arrays;
import java.util.List;
import java.util.concurrent.CompletableFuture;
import java.util.concurrent.TimeUnit;

/** What a history and a stage say in text: lines, reports, pages, and names and values that would forge a line. */
final class HistoriesTest {
    private static final String EVIL = "a\n9 b ends: 1\r\t\u2028\u2029\u0085\u202e\ufeff\ud800 \udb40\udc01;\\ \ud83d\ude00";
    /** As stages tell it, which escape all format characters, and as histories do, which escape those that turn a text's direction. */
    private static final String ESCAPED = "a\\n9 b ends: 1\\r\\t\\u2028\\u2029\\u0085\\u202e\\ufeff\\ud800 \\udb40\\udc01;\\ \ud83d\ude00",
            TOLD = "a\\n9 b ends: 1\\r\\t\\u2028\\u2029\\u0085\\u202e\ufeff\\ud800 \udb40\udc01;\\ \ud83d\ude00";

    private HistoriesTest() {}

    static void oneCall() {
        Stage<Integer> stage = SERVICE.supplyAsync(() -> 1);
        is(stage.join(), 1);
        is(stage.thenApply(x -> x + 1).join(), 2);
        is(stage.request().history().events(), 6);
    }

    static void histories() {
        Request told = SERVICE.request("told");
        Stage<Integer> a = told.promise();
        Stage<Integer> b = a.named("a").thenApply(x -> 10 / x).named("b");
        a.complete(0);
        is(a.complete(1), false);
        is(b.isCompletedExceptionally(), true);
        History history = told.history();
        is(history.toString().replaceAll("(?m)^ *[0-9.]* ms  |^ +", ""), String.join("\n", "told: 6 events, 2 stages",
                "main attaches 0 a, source", "main attaches 1 b, apply behind 0 a", "main completes 0 a with 0", "0 a ends: 0",
                "main claims 1 b and calls it with 0", "main finishes 1 b, which failed with java.lang.ArithmeticException: / by zero",
                "1 b ends: java.lang.ArithmeticException: / by zero", "main completes 0 a with 1: too late", ""));
        is(history.line().replaceAll("in [0-9.]* ms", "in T"),
                "told: 6 events, 2 stages in T; 1 failed: 1 b by java.lang.ArithmeticException: / by zero; 0 open");
        is(history.report(), "attached 0\nattached 1\ntrue\ngranted one 0\nwon\nfalse\nstage 0 value 0\nstage 1 fault thrown 0 wrapped\n");
        a.cancel(false);
        is(history.events(), 6);
        is(told.history().events(), 7);
        is(Words.kindName(history.words()[2]), "complete");
    }

    /** Where the program cf_look is. */
    /** The callers have the numbers that they have in each language (docs/FORMATS.md, "Callers"). */
    static void callers() {
        Request request = SERVICE.request();
        CompletableFuture<Integer> elsewhere = new CompletableFuture<>();
        Stage<Integer> relay = request.adopt(elsewhere);
        elsewhere.complete(1);
        Stage<Integer> late = request.<Integer>promise().completeOnTimeout(2, 1, TimeUnit.MILLISECONDS);
        is(relay.join() + late.join(), 3);
        List<String> found = new ArrayList<>();
        for (long word : request.history().words()) {
            found.add(Words.kindName(word) + " " + Words.caller(word));
        }
        is(found, Arrays.asList("attach 3", "complete 2", "attach 3", "complete 1"));
    }

    static void pages() throws Exception {
        Request told = SERVICE.request("told \"<b>\"");
        Stage<Integer> first = told.<Integer>promise().named("first");
        first.thenApply(x -> 10 / x).named("divided");
        first.complete(0);
        Checks.timeOut(told.promise());
        String program = System.getProperty("cf.look", "cf_look");
        if (program.contains("/") && !Files.isExecutable(Paths.get(program))) {
            thrown(IOException.class, () -> told.history().page());
            return;
        }
        String page;
        try {
            page = told.history().page();
        } catch (IOException fault) {
            if (!program.equals("cf_look") || !fault.getMessage().startsWith("Cannot run program")) {
                throw fault;
            }
            System.out.println("(no cf_look on the path)");
            return;
        }
        is(page.startsWith("<!doctype html>") && page.trim().endsWith("</html>"), true);
        is(page.contains("divided") && page.contains("/ by zero") && !page.contains("<b>"), true);
        is(page.contains(" times out "), true);
    }

    static void texts() {
        Request told = SERVICE.request("order 17");
        Stage<Integer> user = told.<Integer>promise().named("user"), price = told.<Integer>promise().named("price");
        Stage<Integer> total = user.thenCombine(price, Integer::sum);
        user.complete(1);
        is(total.toString().replaceAll("@[0-9a-f]*", ""), "cf.service.Stage[order 17: 2 combine: Not completed, waits for 1 price]");
        price.complete(2);
        is(total.toString().replaceAll("@[0-9a-f]*", ""), "cf.service.Stage[order 17: 2 combine: Completed normally]");
    }

    /** Nothing that ends a line, turns a text's direction or isn't a character. */
    private static void plain(String text) {
        text.codePoints().forEach(c -> {
            int type = Character.getType(c);
            is(type == Character.CONTROL || "\u061c\u200e\u200f\u202a\u202b\u202c\u202d\u202e\u2066\u2067\u2068\u2069".indexOf(c) >= 0
                    || type == Character.LINE_SEPARATOR || type == Character.PARAGRAPH_SEPARATOR || type == Character.SURROGATE, false);
        });
    }

    /** Names of requests, stages and threads, values and exceptions stay in their line; a backslash and an emoji are told as they are. */
    static void forged() throws Exception {
        is(EVIL.length() < 60, true);
        Request evil = INLINE.request(EVIL);
        Stage<String> value = evil.<String>promise().named(EVIL);
        Stage<String> failed = value.<String>thenApply(x -> {
            throw new IllegalStateException(EVIL);
        }).named(EVIL);
        Stage<String> open = evil.<String>promise().named(EVIL), behind = open.thenApply(x -> x);
        Thread thread = new Thread(() -> value.complete(EVIL), EVIL);
        thread.start();
        thread.join();
        History history = evil.history();
        String said = history.toString();
        String[] lines = said.split("\n", -1);
        is(lines.length, 1 + history.events() + 2 + 1);
        for (String line : lines) {
            plain(line);
        }
        is(said.startsWith(TOLD + ": 7 events, 4 stages\n"), true);
        is(said.contains(TOLD + " completes 0 " + TOLD + " with " + TOLD + "\n"), true);
        is(said.contains("0 " + TOLD + " ends: " + TOLD + "\n"), true);
        is(said.contains("which failed with java.lang.IllegalStateException: a\\n9 b"), true);
        String line = history.line();
        plain(line);
        is(line.split(";", -1).length, 3);
        is(line.startsWith(TOLD.replace(";", "\\u003b") + ": 7 events"), true);
        is(line.endsWith("; 2 open: 2 " + TOLD.replace(";", "\\u003b")), true);
        for (Stage<?> each : Arrays.asList(value, failed, open, behind)) {
            plain(each.toString());
        }
        is(behind.toString().contains("[" + ESCAPED + ": 3 apply: Not completed, waits for 2 " + ESCAPED + "]"), true);
        is(failed.toString().contains("Completed exceptionally: "), true);
        String account = history.account();
        plain(account);
        plain(history.script());
        is(account.contains("\"name\":\"a\\u000a9 b ends: 1\\u000d\\u0009\\u2028\\u2029\\u0085\\u202e\ufeff\\u005cud800 \udb40\udc01;\\u005c \ud83d\ude00\""), true);
        Flow flow = new Flow(EVIL);
        while (true) {
            try {
                flow.promise();
            } catch (RequestFullException full) {
                is(full.getMessage().startsWith("\"" + ESCAPED + "\" has no place"), true);
                break;
            }
        }
        INLINE.start(flow).close();
        is(thrown(IllegalStateException.class, flow::promise).getMessage().contains(ESCAPED), true);
    }

    /** A history tells 60 threads apart, this one among them, and calls all further ones the same. */
    static void manyThreads() throws Exception {
        Request many = SERVICE.request("many");
        List<Stage<Integer>> promises = new ArrayList<>();
        for (int k = 0; k < 70; k++) {
            promises.add(many.promise());
        }
        for (int k = 0; k < 70; k++) {
            Stage<Integer> promise = promises.get(k);
            Thread thread = new Thread(() -> promise.complete(1), "writer " + k);
            thread.start();
            thread.join();
        }
        String account = many.history().account();
        is(account.contains("\"writer 58\"") && !account.contains("\"writer 59\""), true);
    }
}
