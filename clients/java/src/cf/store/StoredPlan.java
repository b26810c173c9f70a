package cf.store;

import cf.internal.Form;
import cf.internal.Native;
import java.nio.charset.StandardCharsets;
import java.util.ArrayList;
import java.util.Collections;
import java.util.LinkedHashMap;
import java.util.List;
import java.util.Map;
import java.util.Objects;

/** The text of a request's plan, of which each process builds the same graph, and what payloads say of attached stages. */
final class StoredPlan {
    private static final long FORMAT = 3;

    /** The name of its flow, which is empty where there is none. */
    final String flow;
    /** Form and sources of each stage, and what is said of it. */
    final List<Form> forms = new ArrayList<>();
    final List<int[]> sources = new ArrayList<>();
    final List<StageSpec> specs = new ArrayList<>();
    /** The same for the library, as {@link Native#plan} has it. */
    final int[] rows;
    /** What of the context goes along with the functions of these stages. */
    final Map<String, Object> context;

    /** The text of a flow's plan, or of one without stages, with what is to go along with its functions. */
    static String text(String flow, List<?> stages, Map<String, ?> carried) {
        Map<String, Object> plan = new LinkedHashMap<>();
        plan.put("cf", FORMAT);
        plan.put("flow", flow);
        plan.put("stages", stages);
        if (!carried.isEmpty()) {
            plan.put("context", carried);
        }
        return new String(Json.write(plan), StandardCharsets.UTF_8);
    }

    /** Reads the text of a request's plan. */
    StoredPlan(String text, String request) {
        try {
            Map<?, ?> read = (Map<?, ?>) Json.read(text.getBytes(StandardCharsets.UTF_8));
            if (!Long.valueOf(FORMAT).equals(read.get("cf"))) {
                throw new IllegalArgumentException("it is of version " + read.get("cf"));
            }
            flow = String.valueOf(read.get("flow"));
            List<Integer> numbers = new ArrayList<>();
            for (Object it : (List<?>) read.get("stages")) {
                add((Map<?, ?>) it, numbers);
            }
            rows = numbers.stream().mapToInt(Integer::intValue).toArray();
            context = toArguments(read.get("context"));
        } catch (IllegalArgumentException | ClassCastException | NullPointerException fault) {
            throw new StoreException.Broken(request, 0, "its plan can't be read: " + fault.getMessage());
        }
    }

    private void add(Map<?, ?> stage, List<Integer> numbers) {
        Form form = form(String.valueOf(stage.get("form")));
        List<?> of = stage.get("of") == null ? new ArrayList<>() : (List<?>) stage.get("of");
        int[] found = of.stream().mapToInt(it -> Math.toIntExact((Long) it)).toArray();
        numbers.add(form.ordinal());
        numbers.add(form.calls ? forms.size() : -1);
        numbers.add(found.length);
        for (int source : found) {
            numbers.add(source);
        }
        specs.add(new StageSpec(stage, forms.size()));
        forms.add(form);
        sources.add(found);
    }

    private static Form form(String name) {
        for (Form form : Form.values()) {
            if (form.text.equals(name)) {
                return form;
            }
        }
        throw new IllegalArgumentException("it has a form " + name);
    }

    /** What is said of a stage: its name, and its function's name, version and arguments. */
    static final class StageSpec {
        final String name, function;
        final int version;
        final List<?> args;
        /** Arguments by name, and what of the context goes along. */
        final Map<String, Object> namedArgs, context;
        /**
         * The stage whose function a further try calls, the promise for what a composing stage's function gives, and the composing stage whose function
         * has attached it; or -1.
         */
        final int retriedStage, promise, composingStage;

        StageSpec(Map<?, ?> read, int number) {
            name = (String) Objects.requireNonNull(read.get("name"), "a stage has no name");
            function = (String) read.get("fn");
            version = read.get("version") == null ? 0 : Math.toIntExact((Long) read.get("version"));
            args = (List<?>) read.get("args");
            namedArgs = toArguments(read.get("kwargs"));
            context = toArguments(read.get("context"));
            retriedStage = lowerStage(read.get("again"), number);
            promise = lowerStage(read.get("to"), number);
            composingStage = lowerStage(read.get("by"), number);
        }

        /** Whether as much is said of another stage, but for what goes along, and for its promise. */
        boolean isAlike(StageSpec other) {
            return name.equals(other.name) && Objects.equals(function, other.function) && version == other.version
                    && retriedStage == other.retriedStage
                    && composingStage == other.composingStage && namedArgs.equals(other.namedArgs) && orEmpty(args).equals(orEmpty(other.args));
        }

        private static List<?> orEmpty(List<?> args) {
            return args == null ? Collections.emptyList() : args;
        }

        private static int lowerStage(Object stage, int number) {
            if (stage == null) {
                return -1;
            }
            int found = Math.toIntExact((Long) stage);
            if (found < 0 || found >= Math.max(number, 1)) {
                throw new IllegalArgumentException("it names a stage that isn't lower than " + number);
            }
            return found;
        }
    }

    @SuppressWarnings("unchecked")
    private static Map<String, Object> toArguments(Object read) {
        return read == null ? Collections.emptyMap() : (Map<String, Object>) (Map<?, ?>) read;
    }
}
