class A extends String { } final class F { } class G extends F { }
