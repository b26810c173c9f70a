package cf.service;

import cf.internal.Form;
import java.util.concurrent.Executor;

/** A function with the context that goes along with it. */
final class ContextFunction {
    private final Executor context;
    private final Object function;

    ContextFunction(Executor within, Object function) {
        this.context = within;
        this.function = function;
    }

    /** Calls a function of this form, in its context if it has one. */
    static Object call(Form form, Object function, Object first, Object second) {
        return function instanceof ContextFunction ? ((ContextFunction) function).callWithin(form, first, second)
                : form.call(function, first, second);
    }

    private Object callWithin(Form form, Object first, Object second) {
        Invocation call = new Invocation(form, first, second);
        context.execute(call);
        if (call.thrown != null) {
            ContextFunction.<RuntimeException>rethrow(call.thrown);
        }
        if (!call.isDone) {
            throw new IllegalStateException("the context has not called the function at once");
        }
        return call.result;
    }

    @SuppressWarnings("unchecked")
    private static <E extends Throwable> void rethrow(Throwable error) throws E {
        throw (E) error;
    }

    private final class Invocation implements Runnable {
        private final Form form;
        private final Object first, second;
        private Object result;
        private Throwable thrown;
        private boolean isDone;

        Invocation(Form form, Object first, Object second) {
            this.form = form;
            this.first = first;
            this.second = second;
        }

        @Override
        public void run() {
            try {
                result = form.call(function, first, second);
            } catch (Throwable error) {
                thrown = error;
            }
            isDone = true;
        }
    }
}
