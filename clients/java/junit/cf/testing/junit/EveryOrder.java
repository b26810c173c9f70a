package cf.testing.junit;

import cf.testing.Orders;
import cf.testing.World;
import java.lang.annotation.Documented;
import java.lang.annotation.ElementType;
import java.lang.annotation.Retention;
import java.lang.annotation.RetentionPolicy;
import java.lang.annotation.Target;
import org.junit.jupiter.api.Test;
import org.junit.jupiter.api.extension.ExtendWith;

/**
 * A test of JUnit 5 that is run in every order. The first order that fails is its failure, and the message is the story of it.
 *
 * <pre>{@code
 * @EveryOrder(seconds = 5, whole = true)
 * void chargesOnce(World world) {
 *     ..
 * }
 * }</pre>
 *
 * <p>The method has a parameter of type {@link World}, and may have others, which JUnit gives as to any test. An instance of its class, and what
 * stands before and after each test, is made once for all orders, so none of it may keep what an order changes.
 */
@Documented
@Target({ElementType.METHOD, ElementType.ANNOTATION_TYPE})
@Retention(RetentionPolicy.RUNTIME)
@Test
@ExtendWith(InEveryOrder.class)
public @interface EveryOrder {
    /** See {@link Orders#most}. */
    int most() default Orders.MOST;

    /** See {@link Orders#seconds}. */
    double seconds() default Orders.SECONDS;

    /** See {@link Orders#row}; if it is empty, all orders are tried. */
    String row() default "";

    /** See {@link Orders#chance}; if it is 0, orders come in turn. */
    int chance() default 0;

    /** What orders by chance depend on. */
    long seed() default 0;

    /** See {@link Orders#workers}. */
    int workers() default 0;

    /** See {@link Orders#fine}. */
    boolean fine() default false;

    /** See {@link Orders#whole}. */
    boolean whole() default false;
}
