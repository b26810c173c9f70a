package cf.service;

import cf.internal.Text;
import cf.internal.Words;
import jdk.jfr.Category;
import jdk.jfr.Description;
import jdk.jfr.Enabled;
import jdk.jfr.Event;
import jdk.jfr.Label;
import jdk.jfr.Name;
import jdk.jfr.StackTrace;

/**
 * Events of jdk.jfr: cf.Word for each word of a request, cf.Stage for each stage that is settled. There are many, so recordings have them only
 * where their settings say so.
 */
final class FlightRecorder extends Recorder {
    @Override
    boolean isOn() {
        return jdk.jfr.FlightRecorder.isInitialized();
    }

    @Name("cf.Word")
    @Label("Word")
    @Category({"cf", "Requests"})
    @Enabled(false)
    @Description("An event of a request's history")
    @StackTrace(false)
    static final class WordEvent extends Event {
        @Label("Request") String request;
        @Label("Event") String event;
        @Label("Stage") int stage;
        @Label("Caller") int caller;
        @Label("Word") long word;
    }

    @Name("cf.Stage")
    @Label("Stage")
    @Category({"cf", "Requests"})
    @Enabled(false)
    @Description("A stage that is settled")
    @StackTrace(false)
    static final class StageEvent extends Event {
        @Label("Request") String request;
        @Label("Stage") int number;
        @Label("Form") String form;
        @Label("Name") String name;
        @Label("Ends") String outcome;
    }

    @Override
    boolean takesWords() {
        return new WordEvent().isEnabled();
    }

    @Override
    boolean takesStages() {
        return new StageEvent().isEnabled();
    }

    @Override
    void recordWord(String request, long word) {
        WordEvent event = new WordEvent();
        event.request = Text.escape(request);
        event.event = Words.kindName(word);
        event.stage = Words.stage(word);
        event.caller = Words.caller(word);
        event.word = word;
        event.commit();
    }

    @Override
    void recordStage(String request, int number, String form, String name, String outcome) {
        StageEvent event = new StageEvent();
        event.request = Text.escape(request);
        event.number = number;
        event.form = form;
        event.name = Text.escape(name);
        event.outcome = Text.escape(outcome);
        event.commit();
    }
}
