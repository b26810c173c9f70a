/** What {@code cf.service}, {@code cf.store} and {@code cf.testing} share. It is no part of what a program may use: any version may change it. */
package cf.internal;
