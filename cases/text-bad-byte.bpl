axiom @;
