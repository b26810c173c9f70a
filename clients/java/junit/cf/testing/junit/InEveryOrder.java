package cf.testing.junit;

import cf.testing.Orders;
import cf.testing.World;
import java.lang.reflect.Method;
import java.util.Arrays;
import org.junit.jupiter.api.extension.ExtensionConfigurationException;
import org.junit.jupiter.api.extension.ExtensionContext;
import org.junit.jupiter.api.extension.InvocationInterceptor;
import org.junit.jupiter.api.extension.ParameterContext;
import org.junit.jupiter.api.extension.ParameterResolver;
import org.junit.jupiter.api.extension.ReflectiveInvocationContext;
import org.junit.platform.commons.support.AnnotationSupport;
import org.junit.platform.commons.support.ReflectionSupport;

/** Calls a test method once for each order, in the place of JUnit's one call. */
final class InEveryOrder implements ParameterResolver, InvocationInterceptor {
    @Override
    public boolean supportsParameter(ParameterContext parameter, ExtensionContext test) {
        return parameter.getParameter().getType() == World.class
                && AnnotationSupport.isAnnotated(parameter.getDeclaringExecutable(), EveryOrder.class);
    }

    /** Nothing yet: each order has a world of its own. */
    @Override
    public Object resolveParameter(ParameterContext parameter, ExtensionContext test) {
        return null;
    }

    @Override
    public void interceptTestMethod(Invocation<Void> once, ReflectiveInvocationContext<Method> called, ExtensionContext test) {
        once.skip();
        Method method = called.getExecutable();
        int place = Arrays.asList(method.getParameterTypes()).indexOf(World.class);
        if (place < 0) {
            throw new ExtensionConfigurationException("a test in every order has a parameter of type World, and " + method + " has none");
        }
        EveryOrder said = AnnotationSupport.findAnnotation(method, EveryOrder.class).get();
        Orders orders = Orders.of(world -> {
            Object[] given = called.getArguments().toArray();
            given[place] = world;
            ReflectionSupport.invokeMethod(method, called.getTarget().orElse(null), given);
        }).most(said.most()).seconds(said.seconds()).chance(said.chance(), said.seed()).workers(said.workers());
        if (!said.row().isEmpty()) {
            orders.row(said.row());
        }
        if (said.fine()) {
            orders.fine();
        }
        if (said.whole()) {
            orders.whole();
        }
        orders.check();
    }
}
