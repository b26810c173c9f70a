package cf.store;

import cf.internal.Form;
import cf.internal.Full;
import cf.service.RequestFullException;
import java.nio.charset.StandardCharsets;
import java.util.ArrayList;
import java.util.Arrays;
import java.util.LinkedHashMap;
import java.util.List;
import java.util.Map;
import java.util.stream.Collectors;

/**
 * A plan of stages with functions that are known by name, built once by one thread, and done again for each request in a store:
 * {@link StoreService#start} begins one. Its stages stand in the store as one text, so a request of it takes no words to attach them.
 *
 * <pre>{@code
 * StoredFlow flow = new StoredFlow("order");
 * StoredFlow.Step paid = flow.promise("order").then("charge");
 * StoredRequest request = service.start(flow, "order 17", order);   // completes the promises in their order
 * request.stage(paid).get();
 * }</pre>
 *
 * <p>A step doesn't compose: what its function gives would be a stage more. A step that is another flow's throws {@code IllegalArgumentException}.
 */
public final class StoredFlow {
    private static final int MOST = 4096;

    final String name;
    final List<Step> promises = new ArrayList<>();
    private final List<Map<String, Object>> stages = new ArrayList<>();

    /** A plan without steps. */
    public StoredFlow(String name) {
        this.name = name;
    }

    /** A stage of each request of the flow: {@link StoredRequest#stage(Step)} gives it. Its methods plan one more, as those of the stage do. */
    public final class Step {
        final int number;

        private Step(int number) {
            this.number = number;
        }

        StoredFlow flow() {
            return StoredFlow.this;
        }

        /** As {@link StoredStage#then}. */
        public Step then(String function) {
            return step(Form.APPLY, function, this);
        }

        /** As {@link StoredStage#combine}. */
        public Step combine(Step other, String function) {
            return step(Form.COMBINE, function, this, other);
        }

        /** As {@link StoredStage#either}. */
        public Step either(Step other, String function) {
            return step(Form.APPLY_EITHER, function, this, other);
        }

        /** As {@link StoredStage#handle}. */
        public Step handle(String function) {
            return step(Form.HANDLE, function, this);
        }

        /** As {@link StoredStage#whenDone}. */
        public Step whenDone(String function) {
            return step(Form.WHEN_COMPLETE, function, this);
        }

        /** As {@link StoredStage#recover}. */
        public Step recover(String function) {
            return step(Form.EXCEPTIONALLY, function, this);
        }

        /** As {@link StoredStage#again}. */
        public Step again(int times) {
            Step last = this;
            for (int k = 0; k < times; k++) {
                last = add(Form.EXCEPTIONALLY, stages.get(number).get("name") + " again", last);
                stages.get(last.number).put("again", number);
            }
            return last;
        }
    }

    /** A step that calls a registered function with arguments of JSON's. */
    public Step supply(String function, Object... args) {
        Step step = step(Form.SUPPLY, function);
        if (args.length > 0) {
            stages.get(step.number).put("args", Arrays.asList(args));
        }
        return step;
    }

    /** A step without a function. The arguments of {@link StoreService#start} are for the promises, in their order. */
    public Step promise(String name) {
        Step step = add(Form.SOURCE, name);
        promises.add(step);
        return step;
    }

    /** As {@link StoredRequest#allOf}, in one stage. */
    public Step allOf(Step... of) {
        return add(Form.ALL_OF, "all of", of);
    }

    /** As {@link StoredRequest#anyOf}, in one stage. */
    public Step anyOf(Step... of) {
        return add(Form.ANY_OF, "first of", of);
    }

    private Step step(Form form, String function, Step... of) {
        Step step = add(form, function, of);
        stages.get(step.number).put("fn", function);
        return step;
    }

    private Step add(Form form, String name, Step... of) {
        if (stages.size() == MOST) {
            throw new RequestFullException(new Full(this.name));
        }
        List<Integer> sources = new ArrayList<>();
        for (Step source : of) {
            if (source.flow() != this) {
                throw new IllegalArgumentException("it is a step of another flow");
            }
            sources.add(source.number);
        }
        Map<String, Object> said = new LinkedHashMap<>();
        said.put("form", form.text);
        said.put("of", sources);
        said.put("name", name);
        stages.add(said);
        return new Step(stages.size() - 1);
    }

    /** Whether its step of a number is the same as in a plan that a request was begun with. */
    boolean hasStep(int number, StoredPlan plan) {
        Map<String, Object> step = stages.get(number);
        return name.equals(plan.flow) && number < plan.forms.size() && plan.forms.get(number).text.equals(step.get("form"))
                && plan.specs.get(number).name.equals(step.get("name"))
                && Arrays.stream(plan.sources.get(number)).boxed().collect(Collectors.toList()).equals(step.get("of"));
    }

    String nameOf(Step step) {
        return (String) stages.get(step.number).get("name");
    }

    /** The text of the plan, with the latest versions of its functions, and with what goes along with them. */
    String text(Functions functions, Map<String, ?> carried) {
        List<Map<String, Object>> all = new ArrayList<>();
        for (Map<String, Object> stage : stages) {
            Map<String, Object> said = new LinkedHashMap<>(stage);
            if (said.containsKey("fn")) {
                said.put("version", functions.latestVersion((String) said.get("fn"), false));
            }
            all.add(said);
        }
        return StoredPlan.text(name, all, carried);
    }

    /** Whether two texts are of one plan, wherever each was begun. */
    static boolean areAlike(String text, String other) {
        return text.equals(other) || withoutContext(text).equals(withoutContext(other));
    }

    private static Object withoutContext(String text) {
        try {
            Map<?, ?> read = (Map<?, ?>) Json.read(text.getBytes(StandardCharsets.UTF_8));
            read.remove("context");
            return read;
        } catch (IllegalArgumentException | ClassCastException noPlan) {
            return text;
        }
    }
}
