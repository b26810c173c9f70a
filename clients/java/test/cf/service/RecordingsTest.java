package cf.service;

import static cf.service.Checks.INLINE;
import static cf.service.Checks.is;
import static cf.service.Checks.SERVICE;

import java.nio.file.Files;
import java.nio.file.Path;
import java.util.ArrayList;
import java.util.List;

/** Recordings of jdk.jfr: which events do they have, and only if asked for? */
final class RecordingsTest {
    private RecordingsTest() {}

    /** A recording has an event for each word and for each stage that was settled. */
    static void recordings() throws Exception {
        try {
            Class.forName("jdk.jfr.Recording");
        } catch (ClassNotFoundException none) {
            System.out.println("(no recordings in this JVM)");
            return;
        }
        is(Recorder.current() != null, jdk.jfr.FlightRecorder.isInitialized());
        Path file = Files.createTempFile("cf", ".jfr");
        int words;
        try (jdk.jfr.Recording recording = new jdk.jfr.Recording()) {
            recording.enable("cf.Word");
            recording.enable("cf.Stage");
            recording.start();
            Request recordedRequest = SERVICE.request("recorded");
            Stage<Integer> first = recordedRequest.promise();
            Stage<Integer> last = first.thenApply(x -> x + 1).thenApply(x -> x * 2).named("twice").thenCompose(x -> first);
            recordedRequest.allOf(first, last, recordedRequest.failedFuture(new IllegalStateException("no")));
            first.complete(20);
            words = recordedRequest.history().events();
            Stage<Integer> call = new Service(Runnable::run).supplyAsync(() -> 1);
            words += call.request().history().events();
            Flow flow = new Flow("recorded flow");
            Flow.Step<Integer> given = flow.promise(), more = given.thenApply(x -> x + 1);
            Request done = SERVICE.start(flow, 1);
            is(done.stage(more).join() + done.stage(more).join() + done.stage(given).join(), 5);
            Stage<Object> silent = SERVICE.request("silent").promise(), behind = silent.thenApply(x -> "told");
            silent.complete(new Object() {
                @Override
                public String toString() {
                    throw new StackOverflowError();
                }
            });
            is(behind.join(), "told");
            recording.stop();
            recording.dump(file);
        }
        int recorded = 0, flows = 0;
        List<String> ends = new ArrayList<>();
        for (jdk.jfr.consumer.RecordedEvent event : jdk.jfr.consumer.RecordingFile.readAllEvents(file)) {
            if (event.getEventType().getName().equals("cf.Word") && event.getString("request").matches("recorded|one call")) {
                recorded++;
            }
            flows += event.getEventType().getName().equals("cf.Stage") && event.getString("request").equals("recorded flow") ? 1 : 0;
            if (event.getEventType().getName().equals("cf.Stage") && event.getString("request").equals("recorded")) {
                ends.add(event.getString("name") + ": " + event.getString("outcome"));
            }
        }
        Files.delete(file);
        is(flows, 2);
        is(recorded, words);
        is(ends.contains("2 twice: 42"), true);
        is(ends.size(), 7);
    }

    /** A recording has events of requests only where it asks for them. */
    static void unasked() throws Exception {
        Path file = Files.createTempFile("cf", ".jfr");
        try (jdk.jfr.Recording recording = new jdk.jfr.Recording(jdk.jfr.Configuration.getConfiguration("profile"))) {
            recording.start();
            INLINE.request("unasked").completedFuture(1).thenApply(x -> x);
            is(Recorder.current() != null, true);
            is(Recorder.hasStages() || Recorder.current().takesWords(), false);
            recording.stop();
            recording.dump(file);
        } catch (NoClassDefFoundError none) {
            return;
        }
        for (jdk.jfr.consumer.RecordedEvent event : jdk.jfr.consumer.RecordingFile.readAllEvents(file)) {
            is(event.getEventType().getName().startsWith("cf."), false);
        }
        Files.delete(file);
    }
}
