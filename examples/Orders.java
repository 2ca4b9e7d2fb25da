// Orders of a shop, with three mistakes. `nullcheck` answers:
//
//     examples/Orders.java:40:12: DEREF
//     examples/Orders.java:63:16: ARG-INIT
//     examples/Orders.java:89:3: CTOR-FIELDS
//     rejected 3
package demo;

import org.checkerframework.checker.nullness.qual.Nullable;

public class Orders {
  private @Nullable Order newest;
  private int count;

  void add(Order order) {
    order.older = newest;
    newest = order;
    count++;
  }

  @Nullable Order find(int number) {
    Order order = newest;
    while (order != null && order.number != number) {
      order = order.older;
    }
    return order;
  }

  int total() {
    int sum = 0;
    for (Order o = newest; o != null; o = o.older) {
      sum += o.price();
    }
    return sum;
  }

  String receipt(int number) {
    Order order = find(number);
    // Mistake: there may be no such order.
    return order.customer.name + " has ordered";
  }

  public static void main(String[] args) {
    Orders orders = new Orders();
    for (String name : args) {
      Customer customer = new Customer(name, name.length() > 4);
      new Order(orders, customer, orders.count + 1).put(new Item("pen", 2));
    }
    System.out.println(orders.receipt(1));
    System.out.println("in all " + orders.total());
  }
}

class Order {
  final Customer customer;
  final int number;
  @Nullable Order older;
  private @Nullable Item items;

  Order(Orders orders, Customer customer, int number) {
    this.number = number;
    // Mistake: others can find the order before it has a customer.
    orders.add(this);
    this.customer = customer;
  }

  void put(Item item) {
    item.next = items;
    items = item;
  }

  int price() {
    int sum = 0;
    Item item = items;
    while (item != null) {
      sum += item.price;
      item = item.next;
    }
    return customer.isRegular ? sum - sum / 10 : sum;
  }
}

class Customer {
  final String name;
  final boolean isRegular;
  String greeting;

  // Mistake: a customer who is not regular has no greeting.
  Customer(String name, boolean isRegular) {
    this.name = name;
    this.isRegular = isRegular;
    if (isRegular) {
      greeting = "Welcome back, " + name;
    }
  }
}

class Item {
  final String name;
  final int price;
  @Nullable Item next;

  Item(String name, int price) {
    this.name = name;
    this.price = price;
  }
}
