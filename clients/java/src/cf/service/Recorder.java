package cf.service;

/** What a flight recording is told, where the JVM has recordings. */
abstract class Recorder {
    private static final Recorder JVMS = find();

    private static Recorder find() {
        try {
            Class.forName("jdk.jfr.Event");
            return (Recorder) Class.forName("cf.service.FlightRecorder").getDeclaredConstructor().newInstance();
        } catch (ReflectiveOperationException | LinkageError none) {
            return null;
        }
    }

    /**
     * Null until the JVM records anything, whose start would cost the first request some tenths of a second; and where it can't. It is asked
     * each time: a listener of the JVM's would keep the class loader for good.
     */
    static Recorder current() {
        return JVMS != null && JVMS.isOn() ? JVMS : null;
    }

    static boolean hasStages() {
        Recorder recorder = current();
        return recorder != null && recorder.takesStages();
    }

    abstract boolean isOn();

    /** Whether a recording that is on takes words, or stages. */
    abstract boolean takesWords();

    abstract boolean takesStages();

    abstract void recordWord(String request, long word);

    abstract void recordStage(String request, int number, String form, String name, String outcome);
}
