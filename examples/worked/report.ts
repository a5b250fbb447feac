! sends the lowest level
shared low; buffer queue;
queue[] = low; send(queue); clear(queue);
